//! Refusals at their boundaries, and each with those that it is told before.

use chargefile_tests::tariff::{log_bytes, tariff_bytes, Band, Logged, MAX_BANDS};

use super::{call, refused, Case, TOWN};

pub fn cases() -> Vec<Case> {
    [
        lengths(),
        too_many_bands(),
        bad_bands(),
        records(),
        too_dear(),
        orders(),
        record_by_record(),
        rooms(),
    ]
    .concat()
}

/// A tariff and a log of some bytes that are refused; enough is lent.
fn case(name: &'static str, tariff: Vec<u8>, log: Vec<u8>, number: u32, place: u32) -> Case {
    Case {
        name,
        tariff,
        log,
        room: 1_000,
        wanted: refused(number, place),
    }
}

/// A band with another code.
fn coded(code: u8) -> Band {
    Band { code, ..TOWN }
}

/// So many bands, with codes from 0 on.
fn many(bands: usize) -> Vec<Band> {
    (0..bands).map(|code| coded(code as u8)).collect()
}

fn town() -> Vec<u8> {
    tariff_bytes(&[TOWN])
}

/// A log of calls in town, as long as these.
fn calls(seconds: &[u32]) -> Vec<u8> {
    let records: Vec<Logged> = seconds.iter().map(|talked| call(0, *talked)).collect();
    log_bytes(&records)
}

/// The same with other bytes at some places.
fn with(mut bytes: Vec<u8>, changed: &[(usize, u8)]) -> Vec<u8> {
    for &(place, byte) in changed {
        bytes[place] = byte;
    }
    bytes
}

fn cut(mut bytes: Vec<u8>, length: usize) -> Vec<u8> {
    bytes.resize(length, 0);
    bytes
}

fn lengths() -> Vec<Case> {
    let log = || calls(&[11, 71]);
    vec![
        case("a tariff of one byte", vec![1], vec![], 1, 1),
        case("a band short of a byte", cut(town(), 19), log(), 1, 19),
        case("a band and a byte", cut(town(), 21), log(), 1, 21),
        case("a log of one byte", town(), vec![0], 1, 1),
        case("a record short of a byte", town(), cut(log(), 31), 1, 31),
        case("two records and a byte", town(), cut(log(), 33), 1, 33),
        case("neither is whole", cut(town(), 23), cut(log(), 17), 1, 23),
        case(
            "a log that is not whole, and no tariff",
            vec![],
            vec![0; 15],
            1,
            15,
        ),
    ]
}

/// "More than 32 bands, at the length".
fn too_many_bands() -> Vec<Case> {
    let bands = |count| tariff_bytes(&many(count));
    let first_bad = with(bands(33), &[(2, 0), (3, 0)]);
    vec![
        case("33 bands", bands(MAX_BANDS + 1), vec![], 16, 660),
        case("33 bands, the first bad", first_bad, vec![], 16, 660),
        case("256 bands", bands(256), calls(&[11]), 16, 5_120),
        case("33 bands and a byte", cut(bands(33), 661), vec![], 1, 661),
    ]
}

/// "Else the first band with an earlier band's code or a bad unit".
fn bad_bands() -> Vec<Case> {
    let bad = |name, bands: &[Band], place| case(name, tariff_bytes(bands), vec![], 16, place);
    let unit = |unit| Band { unit, ..coded(9) };
    let (four, five) = (coded(4), coded(5));
    let last = Band {
        unit: 0,
        ..coded(31)
    };
    vec![
        bad("a unit of 0", &[unit(0)], 0),
        bad("a unit of 3,601", &[four, unit(3_601)], 20),
        bad("a unit of 3,840", &[four, unit(3_840)], 20),
        bad("a unit of 65,535", &[unit(65_535)], 0),
        bad("the last unit of 32", &[many(31), vec![last]].concat(), 620),
        bad("a code twice", &[four, four], 20),
        bad("a code three times", &[four, five, four, four], 40),
        bad("code 0 first and last", &[many(31), many(1)].concat(), 620),
        bad("a unit, then a code", &[four, unit(0), four], 20),
        bad("a code, then a unit", &[four, four, unit(0)], 20),
        bad("a code and a unit", &[unit(60), unit(0)], 20),
    ]
}

/// Refusals 9 and 14: the zero byte is byte 7 of a record, its band byte 6.
fn records() -> Vec<Case> {
    let log = || calls(&[11, 71, 0]);
    let ends = tariff_bytes(&[coded(0), coded(255)]);
    vec![
        case("the zero byte", town(), with(log(), &[(7, 1)]), 9, 0),
        case(
            "the last zero byte",
            town(),
            with(log(), &[(39, 128)]),
            9,
            32,
        ),
        case("no such band", town(), with(log(), &[(6, 2)]), 14, 0),
        case("no band 0", town(), with(log(), &[(22, 0)]), 14, 16),
        case("no band 1", ends, log(), 14, 0),
        case(
            "no seconds in no band",
            town(),
            with(log(), &[(38, 3)]),
            14,
            32,
        ),
        case("a call, and no tariff", vec![], log(), 14, 0),
    ]
}

/// Refusal 15, at midnight.
fn too_dear() -> Vec<Case> {
    const MOST: u32 = u32::MAX;
    let dear = |fee, unit, price| Band {
        free: 0,
        unit,
        fee,
        prices: [price, 0, 0],
        ..TOWN
    };
    let of = |name, band, talked| case(name, tariff_bytes(&[band]), calls(&[0, talked]), 15, 16);
    let longest = Band {
        free: 255,
        ..dear(256, 1, 1)
    };
    vec![
        of("fee and unit to 2^32", dear(MOST - 1, 60, 2), 1),
        of("the highest fee and one more", dear(MOST, 60, 1), 60),
        of("units to 2^32", dear(0, 1, 65_536), 65_536),
        of("units past 2^32 - 1", dear(0, 1, 65_537), 65_536),
        of("the longest call to 2^32", longest, MOST),
        of("the highest charge there is", dear(MOST, 1, MOST), MOST),
    ]
}

/// Two things wrong, in different parts, of which one is told.
fn orders() -> Vec<Case> {
    let nothing = |case: Case| Case { room: 0, ..case };
    let twice = || tariff_bytes(&[TOWN, TOWN]);
    let log = || calls(&[11, 11, 11]);
    let (cut_off, no_band) = (cut(log(), 47), with(log(), &[(6, 9)]));
    let last_zero = with(log(), &[(39, 1)]);
    vec![
        case("a part of a record, a code twice", twice(), cut_off, 1, 47),
        case("a code twice, no such band", twice(), no_band, 16, 20),
        nothing(case("a code twice, nothing lent", twice(), log(), 16, 20)),
        nothing(case("a charge, nothing lent", dear(), log(), 15, 0)),
        nothing(case("a zero byte, nothing lent", town(), last_zero, 9, 32)),
    ]
}

/// The town's band with the highest fee: every unit is too dear.
fn dear() -> Vec<u8> {
    let fee = u32::MAX;
    tariff_bytes(&[Band { fee, ..TOWN }])
}

/// Two things wrong, in one record or in two.
fn record_by_record() -> Vec<Case> {
    let wrong = |name, tariff, changed: &[(usize, u8)], number, place| {
        let log = with(calls(&[11, 11, 11]), changed);
        case(name, tariff, log, number, place)
    };
    vec![
        wrong(
            "zero byte and band at once",
            dear(),
            &[(6, 9), (7, 9)],
            9,
            0,
        ),
        wrong("zero byte and charge at once", dear(), &[(7, 9)], 9, 0),
        wrong("a charge, then a zero byte", dear(), &[(23, 9)], 15, 0),
        wrong("a charge, then a band", dear(), &[(22, 9)], 15, 0),
        wrong(
            "a band, then a zero byte",
            town(),
            &[(6, 9), (23, 9)],
            14,
            0,
        ),
        wrong(
            "a zero byte, then a band",
            town(),
            &[(23, 9), (38, 9)],
            9,
            16,
        ),
    ]
}

/// "Then 11, under 10 bytes a record, at place 0".
fn rooms() -> Vec<Case> {
    let lent = |name, room, seconds: &[u32]| Case {
        room,
        ..case(name, town(), calls(seconds), 11, 0)
    };
    vec![
        lent("nothing lent", 0, &[11]),
        lent("9 bytes for a record", 9, &[11]),
        lent("29 bytes for three", 29, &[0, 11, 71]),
        lent("nothing lent for no seconds", 0, &[0]),
    ]
}
