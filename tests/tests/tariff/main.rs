//! Charges worked out from a switch's log ("The tariff"): the tests' own implementation on cases worked out by hand, pricers that are wrong on purpose,
//! and the tuned rival.

#[path = "../priced/mod.rs"]
mod priced;
mod tuned;
mod wrong;

use chargefile_tests::by_hand::{insert, one_by_one, one_page, ALREADY_THERE, STORED};
use chargefile_tests::job::{Job, Operation};
use chargefile_tests::price;
use chargefile_tests::random::Random;
use chargefile_tests::seeds::few_seeds;
use chargefile_tests::tariff::{class, hour, insert_bytes, log_bytes, tariff_bytes};
use chargefile_tests::tariff::{Band, Class, Logged};
use chargefile_tests::{make_tariff, Outcome};
use priced::{call, cases, done, oclock, refused, TOWN};

/// The last name printed is that of a case that fails.
#[test]
fn every_case_by_hand() {
    let (mut accepted, mut refusals) = (0, 0);
    for case in cases() {
        println!("{}", case.name);
        let outcome = price(&case.tariff, &case.log, case.room);
        assert_eq!(outcome, case.wanted, "{}", case.name);
        match outcome {
            Outcome::Done { .. } => accepted += 1,
            Outcome::Refused { .. } => refusals += 1,
        }
    }
    assert_eq!((accepted, refusals), (56, 51));
}

/// No two cases have one name.
#[test]
fn the_cases_have_names_of_their_own() {
    let mut names: Vec<&str> = cases().iter().map(|case| case.name).collect();
    let all = names.len();
    names.sort();
    names.dedup();
    assert_eq!(names.len(), all);
}

/// Tariff, log and output byte for byte.
#[test]
fn the_bytes_of_a_tariff_a_log_and_its_inserts() {
    let tariff = [
        // code 7, 30 seconds free, a unit of 300 seconds, fee 70,000
        &[7, 30, 44, 1, 0x70, 0x11, 0x01, 0x00][..],
        // 1 in the cheap hours, 258 in the standard hours, 2^24 in the dear hours
        &[1, 0, 0, 0, 2, 1, 0, 0, 0, 0, 0, 1],
    ]
    .concat();
    let log = [
        // call 0x04030201 of extension 0x0605, band 7, zero; from 27,000 on (7:30) for 631 seconds: 3 units
        &[1, 2, 3, 4, 5, 6, 7, 0, 0x78, 0x69, 0, 0, 0x77, 2, 0, 0][..],
        // call 255 of extension 1, band 7, zero; from 28,800 on (8:00) for 31 seconds: 1 unit
        &[255, 0, 0, 0, 1, 0, 7, 0, 0x80, 0x70, 0, 0, 31, 0, 0, 0],
    ]
    .concat();
    let inserts = [
        // 70,000 and 3 times 258: 70,774
        &[2, 0, 1, 2, 3, 4, 0x76, 0x14, 0x01, 0][..],
        // 70,000 and 2^24
        &[2, 0, 255, 0, 0, 0, 0x70, 0x11, 0x01, 1],
    ]
    .concat();
    assert_eq!(price(&tariff, &log, 20), done(inserts));
    let band = Band::from_bytes(&tariff);
    assert_eq!((band.unit, band.fee), (300, 70_000));
    assert_eq!((band.prices, band.free), ([1, 258, 1 << 24], 30));
    assert_eq!(band.to_bytes(), tariff);
    let records = log.chunks(16).map(Logged::from_bytes);
    assert_eq!(log_bytes(&records.collect::<Vec<_>>()), log);
}

/// "0 to 6 and 20 to 23 cheap, 7, 18 and 19 standard, 8 to 17 dear": 11, 3 and 10 hours.
#[test]
fn the_classes_of_the_hours() {
    let classes: Vec<Class> = (0..24).map(class).collect();
    let count = |of: Class| classes.iter().filter(|class| **class == of).count();
    assert_eq!(count(Class::Cheap), 11);
    assert_eq!(count(Class::Standard), 3);
    assert_eq!(count(Class::Dear), 10);
    assert!(classes[8..18].iter().all(|class| *class == Class::Dear));
    assert_eq!([7, 18, 19].map(class), [Class::Standard; 3]);
}

/// The first and the last second of each hour, of the first two days and of the last whole day that a start can be in.
#[test]
fn an_hour_has_3600_seconds() {
    for day in [0, 1, 49_709] {
        for of_day in 0..24 {
            let first = oclock(24 * day + of_day);
            assert_eq!((hour(first), hour(first + 3_599)), (of_day, of_day));
        }
    }
    assert_eq!(hour(u32::MAX), 6);
}

/// Every second of the first calls in town, counted by hand: a unit begins with second 11, 71, 131 and so on.
#[test]
fn a_charge_grows_with_each_unit_begun() {
    let (mut charge, mut log, mut wanted) = (5, Vec::new(), Vec::new());
    for talked in 1..=400 {
        if talked > 10 && (talked - 11) % 60 == 0 {
            charge += 7;
        }
        log.push(call(oclock(10), talked));
        wanted.extend(insert_bytes(1_000, charge));
    }
    assert_eq!(charge, 5 + 7 * 7);
    let outcome = price(&tariff_bytes(&[TOWN]), &log_bytes(&log), 4_000);
    assert_eq!(outcome, done(wanted));
}

/// A log may have any number of records, and what is lent need be no more than 10 bytes for each.
#[test]
fn a_log_of_any_length() {
    let tariff = tariff_bytes(&[TOWN]);
    for records in [0, 1, 255, 256, 257, 4_096, 70_000] {
        let log = call(0, 11).to_bytes().repeat(records);
        let inserts = insert_bytes(1_000, 7).repeat(records);
        assert_eq!(price(&tariff, &log, 10 * records), done(inserts));
        if records > 0 {
            assert_eq!(price(&tariff, &log, 10 * records - 1), refused(11, 0));
        }
    }
}

/// The order of the bands does not matter, and a log in two parts comes to the two parts of its output.
#[test]
fn bands_in_any_order_and_a_log_in_two() {
    let mut priced = 0;
    few_seeds(300, |seed| {
        let random = &mut Random::new(seed, "parts of a log");
        let mut bands = make_tariff::some_bands(random);
        let log = make_tariff::log(random, &bands, 12);
        let whole = price(&tariff_bytes(&bands), &log_bytes(&log), 120);
        random.shuffle(&mut bands);
        let tariff = tariff_bytes(&bands);
        let parts = log.split_at(random.below(log.len() + 1));
        let parts = [parts.0, parts.1].map(|part| price(&tariff, &log_bytes(part), 120));
        let [Outcome::Done { result: first }, Outcome::Done { result: second }] = parts else {
            panic!("a part of a sound log is refused")
        };
        priced += log.len();
        assert_eq!(whole, done([first, second].concat()));
    });
    assert!(priced > 0, "no record");
}

/// The output is a part of a job: the inserts of three calls, one of them twice, whose first charge stays.
#[test]
fn the_inserts_are_operations_of_a_job() {
    let numbered = |number, talked| Logged {
        call: number,
        ..call(0, talked)
    };
    let log = [numbered(2, 11), numbered(7, 0), numbered(2, 71)];
    let outcome = price(&tariff_bytes(&[TOWN]), &log_bytes(&log), 30);
    let wanted: [Operation; 3] = [insert(2, 7), insert(7, 0), insert(2, 9)];
    let file = one_page(&[]);
    let alone = Job::charge_file(&file);
    let job = Job {
        file: file.clone(),
        operations: wanted.to_vec(),
        turns: Vec::new(),
    };
    assert_eq!(outcome, done(job.to_bytes()[alone.len()..].to_vec()));
    let told = one_by_one(&file, &wanted).answers;
    let told: Vec<(u8, u32)> = told.iter().map(|answer| (answer.0, answer.3)).collect();
    assert_eq!(told, [(STORED, 7), (STORED, 0), (ALREADY_THERE, 7)]);
}
