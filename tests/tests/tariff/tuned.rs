//! The pricing of the tuned rival (tests/rival) against the tests' own: what it writes and what it refuses, on every vector, on cases worked out by hand, on
//! random logs and on damaged ones.

use chargefile_tests::make_tariff;
use chargefile_tests::random::Random;
use chargefile_tests::seeds::{each_seed, few_seeds};
use chargefile_tests::tariff::{log_bytes, tariff_bytes};
use chargefile_tests::vectors;
use chargefile_tests::{price, Outcome};

use crate::priced::met::each_is_told;
use crate::priced::{cases, of_every_unit, price_every_hour};

const LOGS: u64 = 1_500;

/// What the rival's pricing comes to in a buffer of so many bytes. The tests' own comes to the same.
fn agree(tariff: &[u8], log: &[u8], room: usize) -> Outcome {
    let told = Outcome::written(room, |out| rival::price(tariff, log, out));
    assert!(told == price(tariff, log, room), "they differ");
    told
}

#[test]
fn every_vector() {
    for vector in vectors::to_be_priced() {
        let outcome = agree(&vector.tariff, &vector.log, vector.room);
        assert!(outcome == vector.wanted, "{}", vector.name);
    }
}

#[test]
fn every_case() {
    for case in cases() {
        let outcome = agree(&case.tariff, &case.log, case.room);
        assert_eq!(outcome, case.wanted, "{}", case.name);
    }
}

#[test]
fn random_logs() {
    let mut records = 0;
    let whole = each_seed(LOGS, |seed| {
        let random = &mut Random::new(seed, "rival pricing");
        let bands = make_tariff::some_bands(random);
        let log = make_tariff::log(random, &bands, 40);
        let outcome = agree(&tariff_bytes(&bands), &log_bytes(&log), 10 * log.len());
        assert!(matches!(outcome, Outcome::Done { .. }));
        records += log.len();
    });
    assert!(records > 30_000 || !whole, "{records} records");
}

/// Its division: every unit there is, around whole units, and as far as calls can be long.
#[test]
fn every_unit() {
    let mut units = 0;
    for (tariff, log) in of_every_unit() {
        let outcome = agree(&tariff, &log, log.len());
        units += usize::from(matches!(outcome, Outcome::Done { .. }));
    }
    assert_eq!(units, 3_600);
}

/// And its hours, by the first and the last second of each.
#[test]
fn every_hour() {
    price_every_hour(agree);
}

/// Around the most that can be charged, in every class.
#[test]
fn around_the_highest_charge() {
    let (mut priced, mut refused) = (0, 0);
    few_seeds(400, |seed| {
        let random = &mut Random::new(seed, "rival limit");
        for (tariff, log) in make_tariff::around_the_limit(random) {
            match agree(&tariff, &log, 10) {
                Outcome::Done { .. } => priced += 1,
                Outcome::Refused { number, place } => {
                    assert_eq!((number, place), (15, 0));
                    refused += 1;
                }
            }
        }
    });
    assert!(priced > 0 && refused > 0, "{priced} and {refused}");
}

#[test]
fn damaged_tariffs_and_logs() {
    each_is_told("rival damage", 100, agree);
}
