//! Random tariffs and logs to be refused, and how often each refusal was met.

use std::collections::BTreeMap;

use chargefile_tests::make_tariff::damaged;
use chargefile_tests::random::Random;
use chargefile_tests::seeds::each_seed;
use chargefile_tests::tariff::{BAND_LENGTH, INSERT_LENGTH, MAX_BANDS, RECORD_LENGTH};
use chargefile_tests::Outcome;

/// How many random tariffs with a log.
const DAMAGED: u64 = 12_000;

/// What a tariff and a log come to, each condition by itself.
const ALL: [&str; 10] = [
    "priced",
    "a tariff that is not whole",
    "a log that is not whole",
    "more than 32 bands",
    "a code twice",
    "a bad unit",
    "the zero byte",
    "no such band",
    "a charge that is too high",
    "too little lent",
];

/// In words, what they came to.
fn in_words(tariff: &[u8], outcome: &Outcome) -> &'static str {
    let Outcome::Refused { number, place } = *outcome else {
        return ALL[0];
    };
    match number {
        1 if !tariff.len().is_multiple_of(BAND_LENGTH) => ALL[1],
        1 => ALL[2],
        16 if tariff.len() > BAND_LENGTH * MAX_BANDS => ALL[3],
        16 if again(tariff, place as usize) => ALL[4],
        16 => ALL[5],
        9 => ALL[6],
        14 => ALL[7],
        15 => ALL[8],
        11 => ALL[9],
        _ => panic!("pricing has no refusal {number}"),
    }
}

/// Whether the code of the band at this place stands before it.
fn again(tariff: &[u8], place: usize) -> bool {
    let mut earlier = tariff[..place].chunks(BAND_LENGTH);
    earlier.any(|band| band[0] == tariff[place])
}

/// Puts random tariffs with logs to `told`, which says what they come to. Each condition is met at least so often.
pub fn each_is_told(
    name: &str,
    least: usize,
    mut told: impl FnMut(&[u8], &[u8], usize) -> Outcome,
) {
    let mut met: BTreeMap<&str, usize> = BTreeMap::new();
    let whole = each_seed(DAMAGED, |seed| {
        let random = &mut Random::new(seed, name);
        let (tariff, log) = damaged(random);
        let enough = log.len() / RECORD_LENGTH * INSERT_LENGTH;
        let less = enough.saturating_sub(random.one_of(&[0, 0, 0, 0, 1, 1_000]));
        let room = random.one_of(&[less, less, less, enough + 20]);
        let outcome = told(&tariff, &log, room);
        *met.entry(in_words(&tariff, &outcome)).or_default() += 1;
    });
    println!("{met:?}");
    if whole {
        let often = |what: &&str| met.get(what).copied().unwrap_or(0) >= least;
        assert!(
            ALL.iter().all(often),
            "each at least {least} times: {met:?}"
        );
    }
}
