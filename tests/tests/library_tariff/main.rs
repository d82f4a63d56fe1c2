//! The library's pricing of a switch's log against the tests' own implementation: output for output, and every byte that must keep its value.

mod in_a_job;
#[path = "../linked/mod.rs"]
mod linked;
#[path = "../priced/mod.rs"]
mod priced;

use chargefile_tests::make_tariff::{self, around_the_limit, some_bands};
use chargefile_tests::random::Random;
use chargefile_tests::seeds::{each_seed, few_seeds};
use chargefile_tests::tally::all_seen;
use chargefile_tests::tariff::{log_bytes, tariff_bytes, Band};
use chargefile_tests::vectors;
use chargefile_tests::{price, Outcome};
use priced::met::each_is_told;
use priced::{call, cases, done, of_every_unit, price_every_hour, refused, TOWN};

const LOGS: u64 = 4_000;

/// An address that is as good as any.
const ROUND: [usize; 3] = [0; 3];

/// Both come to the same.
fn agree(tariff: &[u8], log: &[u8], room: usize) -> Outcome {
    let wanted = price(tariff, log, room);
    linked::prices_to(tariff, log, room, ROUND, &wanted);
    wanted
}

/// Both price a log, lent no more than it must be; with a byte less it is refused.
fn priced_by_both(tariff: &[u8], log: &[u8]) -> Vec<u8> {
    let room = log.len() / 16 * 10;
    if room > 0 {
        assert_eq!(agree(tariff, log, room - 1), refused(11, 0));
    }
    match agree(tariff, log, room) {
        Outcome::Done { result } => result,
        refused => panic!("a sound log is priced: {refused:?}"),
    }
}

/// It comes to what is stored; more lent than stored changes nothing but a refusal for too little. The last name printed is that of a vector that fails.
#[test]
fn every_vector() {
    let mut vectors = 0;
    for vector in vectors::to_be_priced() {
        println!("{}", vector.name);
        let (tariff, log, room) = (&vector.tariff, &vector.log, vector.room);
        linked::prices_to(tariff, log, room, ROUND, &vector.wanted);
        if vector.wanted != refused(11, 0) {
            linked::prices_to(tariff, log, room + 100, ROUND, &vector.wanted);
        }
        vectors += 1;
    }
    assert_eq!(vectors, 79);
}

/// The same for the cases that are worked out by hand.
#[test]
fn every_case_by_hand() {
    for case in cases() {
        println!("{}", case.name);
        let (tariff, log) = (&case.tariff, &case.log);
        linked::prices_to(tariff, log, case.room, ROUND, &case.wanted);
        if case.wanted != refused(11, 0) {
            linked::prices_to(tariff, log, case.room + 7, ROUND, &case.wanted);
        }
    }
}

#[test]
fn random_logs() {
    let (mut records, mut free) = (0, 0);
    let whole = each_seed(LOGS, |seed| {
        let random = &mut Random::new(seed, "library pricing");
        let bands = some_bands(random);
        let length = random.one_of(&[1, 3, 12, 60]);
        let log = make_tariff::log(random, &bands, length);
        let inserts = priced_by_both(&tariff_bytes(&bands), &log_bytes(&log));
        records += log.len();
        let costs_nothing = |insert: &&[u8]| insert[6..] == [0; 4];
        free += inserts.chunks(10).filter(costs_nothing).count();
    });
    if whole {
        all_seen([("records", records, 40_000), ("free calls", free, 2_000)]);
    }
}

/// As many records as a busy site has, and one record more or less than a power of two.
#[test]
fn long_logs() {
    let mut records = 0;
    for (seed, length) in (0..).zip([255, 256, 257, 1_023, 4_096, 4_097, 10_000, 20_000]) {
        let random = &mut Random::new(seed, "library long logs");
        let bands = make_tariff::tariff(random, 32);
        let log = make_tariff::log(random, &bands, length);
        let inserts = priced_by_both(&tariff_bytes(&bands), &log_bytes(&log));
        assert_eq!(inserts.len(), 10 * length);
        // the fault of the last record is found behind all others
        let mut log = log_bytes(&log);
        let last = log.len() - 16;
        log[last + 7] = 1;
        let wanted = refused(9, last as u32);
        assert_eq!(agree(&tariff_bytes(&bands), &log, 10 * length), wanted);
        records += length;
    }
    assert_eq!(records, 39_984);
}

/// Every unit there is, around whole units, and as far as calls can be long.
#[test]
fn every_unit() {
    let mut charges = 0;
    for (tariff, log) in of_every_unit() {
        charges += priced_by_both(&tariff, &log).len() / 10;
    }
    assert_eq!(charges, 3_600 * 16);
}

/// The first and the last second of every hour that a call can start in.
#[test]
fn every_hour() {
    price_every_hour(agree);
}

/// Every code of a band with every code of a record.
#[test]
fn every_code() {
    let (mut found, mut missing) = (0, 0);
    for code in 0..=255 {
        let band = Band { code, ..TOWN };
        for of_record in 0..=255 {
            let mut record = call(0, 11);
            record.band = of_record;
            match agree(&band.to_bytes(), &record.to_bytes(), 10) {
                Outcome::Done { .. } => found += 1,
                outcome => {
                    assert_eq!(outcome, refused(14, 0));
                    missing += 1;
                }
            }
        }
    }
    assert_eq!((found, missing), (256, 255 * 256));
}

/// A charge of 2^32 - 1, of one less and of one more, by fees and units of all kinds.
#[test]
fn around_the_highest_charge() {
    let mut told = [0, 0];
    few_seeds(1_000, |seed| {
        let random = &mut Random::new(seed, "library limit");
        let [less, just, more] = around_the_limit(random);
        for (tariff, log) in [less, just] {
            priced_by_both(&tariff, &log);
            told[0] += 1;
        }
        assert_eq!(agree(&more.0, &more.1, 10), refused(15, 0));
        told[1] += 1;
    });
    assert_eq!(told[0], 2 * told[1]);
}

/// Each refusal of pricing, in its order, whatever is lent.
#[test]
fn damaged_tariffs_and_logs() {
    each_is_told("library damage", 400, agree);
}

/// Every length of the output for a few small logs: from 10 bytes a record on it is priced, and not before.
#[test]
fn every_room() {
    few_seeds(40, |seed| {
        let random = &mut Random::new(seed, "library tariff room");
        let bands = make_tariff::tariff(random, 3);
        let records = random.below(12);
        let log = log_bytes(&make_tariff::log(random, &bands, records));
        let least = 10 * records;
        for room in 0..least + 35 {
            let outcome = agree(&tariff_bytes(&bands), &log, room);
            assert_eq!(outcome == refused(11, 0), room < least);
        }
    });
}

/// Every length of a tariff up to some bands past the last, and every length of a log.
#[test]
fn every_length() {
    let bands: Vec<Band> = (0..40).map(|code| Band { code, ..TOWN }).collect();
    let bands = tariff_bytes(&bands);
    for length in 0..=bands.len() {
        let wanted = match length {
            _ if length % 20 != 0 => refused(1, length as u32),
            660.. => refused(16, length as u32),
            _ => done(Vec::new()),
        };
        assert_eq!(agree(&bands[..length], &[], 0), wanted);
    }
    let log = call(0, 0).to_bytes().repeat(20);
    for length in 0..=log.len() {
        let outcome = agree(&TOWN.to_bytes(), &log[..length], 200);
        let whole = matches!(outcome, Outcome::Done { .. });
        assert_eq!(whole, length % 16 == 0);
        assert!(whole || outcome == refused(1, length as u32));
    }
}

/// Tariff, log and output may begin at any address; and nothing beside them is written.
#[test]
fn every_address() {
    few_seeds(8, |seed| {
        let random = &mut Random::new(seed, "library tariff address");
        let bands = make_tariff::tariff(random, 5);
        let log = log_bytes(&make_tariff::log(random, &bands, 7));
        let tariff = tariff_bytes(&bands);
        for behind in (0..16).flat_map(|one| (0..16).map(move |other| (one, other))) {
            let behind = [random.below(16), behind.0, behind.1];
            let room = random.one_of(&[69, 70, 71]);
            linked::prices_to(&tariff, &log, room, behind, &price(&tariff, &log, room));
        }
    });
}

/// What the output holds beforehand does not matter, and is kept behind the inserts.
#[test]
fn whatever_was_there_before() {
    few_seeds(200, |seed| {
        let random = &mut Random::new(seed, "library tariff before");
        let bands = make_tariff::tariff(random, 4);
        let log = log_bytes(&make_tariff::log(random, &bands, 9));
        let mut out: Vec<u8> = (0..120).map(|_| random.bits() as u8).collect();
        let before = out.clone();
        let told = linked::price(&tariff_bytes(&bands), &log, &mut out);
        let wanted = price(&tariff_bytes(&bands), &log, 120);
        assert_eq!(told, linked::wanted(&wanted));
        assert_eq!(out[90..], before[90..]);
    });
}

/// Number and place are whole numbers of 64 bits, the length too: no part of them is left as it was.
#[test]
fn the_whole_outcome() {
    let (tariff, mut log) = (TOWN.to_bytes(), call(0, 11).to_bytes().repeat(3));
    let told = linked::price_only(&tariff, &log, &mut [0; 31]);
    assert_eq!((told.refusal, told.place, told.length), (0, 0, 30));
    let told = linked::price_only(&tariff, &log, &mut [0; 29]);
    assert_eq!((told.refusal, told.place, told.length), (11, 0, 0));
    log[38] = 9;
    let told = linked::price_only(&tariff, &log, &mut [0; 30]);
    assert_eq!((told.refusal, told.place, told.length), (14, 32, 0));
    let told = linked::price_only(&[], &[], &mut []);
    assert_eq!((told.refusal, told.place, told.length), (0, 0, 0));
}
