//! Small tariffs and logs with what comes of them, worked out by hand: charges and refusals; and random ones to be refused.
// each test program uses its own part of these
#![allow(dead_code)]

pub mod charges;
pub mod met;
pub mod refusals;

use chargefile_tests::tariff::{log_bytes, Band, Logged, HOUR, MAX_UNIT};
use chargefile_tests::Outcome;

/// A tariff and a log with their name, what is lent, and what comes of it.
#[derive(Clone)]
pub struct Case {
    pub name: &'static str,
    pub tariff: Vec<u8>,
    pub log: Vec<u8>,
    pub room: usize,
    pub wanted: Outcome,
}

/// Those that are priced, then those that are refused.
pub fn cases() -> Vec<Case> {
    charges::cases()
        .into_iter()
        .chain(refusals::cases())
        .collect()
}

/// The case of this name.
pub fn case_of(name: &str) -> Case {
    let mut all = cases().into_iter();
    all.find(|case| case.name == name).expect("a case")
}

/// A call in town: ten seconds are free, a unit has a minute and costs 2, 3 or 7, and the fee is 5.
pub const TOWN: Band = Band {
    code: 1,
    free: 10,
    unit: 60,
    fee: 5,
    prices: [2, 3, 7],
};

/// A call in town: its start and the seconds talked.
pub fn call(start: u32, talked: u32) -> Logged {
    Logged {
        call: 1_000,
        extension: 214,
        band: TOWN.code,
        start,
        talked,
    }
}

/// For every unit a band without a fee, and calls of it around whole units, up to the longest; a unit costs one.
pub fn of_every_unit() -> impl Iterator<Item = (Vec<u8>, Vec<u8>)> {
    (1..=MAX_UNIT).map(|unit| {
        let whole = u32::MAX - u32::MAX % u32::from(unit);
        let seconds = [1, unit.into(), 2 * u32::from(unit), whole / 2, whole];
        let around = seconds.map(|talked| [talked - 1, talked, talked.saturating_add(1)]);
        let seconds = around.concat().into_iter().chain([u32::MAX]);
        let calls: Vec<Logged> = seconds.map(|talked| call(0, talked)).collect();
        let band = Band {
            free: 0,
            fee: 0,
            unit,
            prices: [1, 0, 0],
            ..TOWN
        };
        (band.to_bytes(), log_bytes(&calls))
    })
}

/// Logs of calls in town that start with the first and with the last second of every hour there is; of the last hour only a part.
fn of_every_hour() -> impl Iterator<Item = Vec<u8>> {
    let hours: Vec<u32> = (0..=u32::MAX / HOUR).collect();
    let seconds = |hour: &u32| [hour * HOUR, (hour * HOUR).saturating_add(HOUR - 1)];
    let log = move |hours: &[u32]| {
        let starts = hours.iter().flat_map(seconds);
        let calls: Vec<Logged> = starts.map(|start| call(start, 11)).collect();
        log_bytes(&calls)
    };
    let logs: Vec<Vec<u8>> = hours.chunks(10_000).map(log).collect();
    logs.into_iter()
}

/// Has the calls of all these hours priced, by somebody who answers what comes of a tariff, a log and so many bytes.
pub fn price_every_hour(answers: impl Fn(&[u8], &[u8], usize) -> Outcome) {
    let mut calls = 0;
    for log in of_every_hour() {
        let outcome = answers(&TOWN.to_bytes(), &log, log.len());
        assert!(matches!(outcome, Outcome::Done { .. }));
        calls += log.len() / 16;
    }
    assert_eq!(calls, 2 * 1_193_047);
}

/// The start of an hour of the first day.
pub const fn oclock(hour: u32) -> u32 {
    3_600 * hour
}

pub fn done(result: Vec<u8>) -> Outcome {
    Outcome::Done { result }
}

pub fn refused(number: u32, place: u32) -> Outcome {
    Outcome::Refused { number, place }
}
