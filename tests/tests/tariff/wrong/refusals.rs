//! Wrong refusals: "1 first for a tariff that is not whole bands, then for a log that is not whole records, at its length; 16 (more than 32 bands, at the
//! length; else the first band with an earlier band's code or a bad unit); then record by record, at that record, 9 for the zero byte, 14 (no such band),
//! 15 (charge above 2^32 - 1); then 11, under 10 bytes a record, at place 0."

use chargefile_tests::tariff::{Band, Logged};

use super::{told_apart, Came, Given, Pricer, Refusal, Step, RIGHT as RIGHT_PRICER};

/// What is looked for, in its order.
pub const RIGHT: [Step; 6] = [
    tariff_whole,
    log_whole,
    too_many,
    bad_band,
    bad_record,
    too_little,
];

/// The numbers of some of these.
const TOO_MANY: usize = 2;
const BAD_BAND: usize = 3;
const BAD_RECORD: usize = 4;
const TOO_LITTLE: usize = 5;

fn tariff_whole(_: &Pricer, given: &Given) -> Option<Refusal> {
    let length = given.tariff.len();
    (length % 20 != 0).then_some((1, length))
}

fn log_whole(_: &Pricer, given: &Given) -> Option<Refusal> {
    let length = given.log.len();
    (length % 16 != 0).then_some((1, length))
}

fn too_many(_: &Pricer, given: &Given) -> Option<Refusal> {
    let length = given.tariff.len();
    (length > 640).then_some((16, length))
}

fn bad_band(_: &Pricer, given: &Given) -> Option<Refusal> {
    first_band(given, |bands, i| again(bands, i) || bad_unit(&bands[i]))
}

fn bad_record(pricer: &Pricer, given: &Given) -> Option<Refusal> {
    first_record(given, |bands, record| {
        zero_byte(record)
            .or_else(|| no_band(pricer, bands, record))
            .or_else(|| too_dear(pricer, bands, record))
    })
}

fn too_little(_: &Pricer, given: &Given) -> Option<Refusal> {
    (given.room < given.log.len() / 16 * 10).then_some((11, 0))
}

/// The first band of which this holds, by all bands and its number.
fn first_band(given: &Given, bad: impl Fn(&[Band], usize) -> bool) -> Option<Refusal> {
    let bands = given.bands();
    let first = (0..bands.len()).find(|i| bad(&bands, *i))?;
    Some((16, 20 * first))
}

/// The first record that is refused, with the number of its refusal.
fn first_record(given: &Given, refuse: impl Fn(&[Band], &[u8]) -> Option<u32>) -> Option<Refusal> {
    let bands = given.bands();
    let mut records = given.records().enumerate();
    records.find_map(|(i, record)| Some((refuse(&bands, record)?, 16 * i)))
}

fn again(bands: &[Band], i: usize) -> bool {
    bands[..i].iter().any(|band| band.code == bands[i].code)
}

fn bad_unit(band: &Band) -> bool {
    !(1..=3_600).contains(&band.unit)
}

fn zero_byte(record: &[u8]) -> Option<u32> {
    (record[7] != 0).then_some(9)
}

fn no_band(pricer: &Pricer, bands: &[Band], record: &[u8]) -> Option<u32> {
    (pricer.band)(bands, record[6]).is_none().then_some(14)
}

/// A record whose charge cannot be told; one without a band has none.
fn too_dear(pricer: &Pricer, bands: &[Band], record: &[u8]) -> Option<u32> {
    (pricer.band)(bands, record[6])?;
    let charge = pricer.charge(bands, &Logged::from_bytes(record));
    charge.is_none().then_some(15)
}

/// A pricer that looks for these, in this order.
fn in_order(steps: [Step; 6]) -> Pricer {
    Pricer {
        steps,
        ..RIGHT_PRICER
    }
}

/// A pricer that looks for something else in one place.
fn instead_of(number: usize, step: Step) -> Pricer {
    let mut steps = RIGHT;
    steps[number] = step;
    in_order(steps)
}

/// It comes to a refusal.
fn refused(number: u32, place: u32) -> Came {
    Came::Refused(number, place)
}

#[test]
fn the_log_before_the_tariff() {
    let [tariff, log, many, bands, records, lent] = RIGHT;
    let wrong = in_order([log, tariff, many, bands, records, lent]);
    told_apart(wrong, "neither is whole", refused(1, 17));
}

#[test]
fn bands_before_the_length_of_the_log() {
    let [tariff, log, many, bands, records, lent] = RIGHT;
    let wrong = in_order([tariff, many, bands, log, records, lent]);
    told_apart(wrong, "a part of a record, a code twice", refused(16, 20));
}

#[test]
fn too_many_bands_before_a_part_of_one() {
    let [tariff, log, many, bands, records, lent] = RIGHT;
    let wrong = in_order([many, tariff, log, bands, records, lent]);
    told_apart(wrong, "33 bands and a byte", refused(16, 661));
}

#[test]
fn bad_bands_before_too_many() {
    let [tariff, log, many, bands, records, lent] = RIGHT;
    let wrong = in_order([tariff, log, bands, many, records, lent]);
    told_apart(wrong, "33 bands, the first bad", refused(16, 0));
}

#[test]
fn what_is_lent_before_the_bands_or_the_records() {
    let [tariff, log, many, bands, records, lent] = RIGHT;
    let first = in_order([lent, tariff, log, many, bands, records]);
    told_apart(first, "a code twice, nothing lent", refused(11, 0));
    let before_records = in_order([tariff, log, many, bands, lent, records]);
    told_apart(before_records, "a charge, nothing lent", refused(11, 0));
}

#[test]
fn the_33rd_band_for_the_length() {
    let wrong = instead_of(TOO_MANY, |pricer, given| {
        too_many(pricer, given).map(|(number, _)| (number, 640))
    });
    told_apart(wrong, "33 bands", refused(16, 640));
    told_apart(wrong, "256 bands", refused(16, 640));
}

#[test]
fn as_many_bands_as_there_are_codes() {
    let wrong = instead_of(TOO_MANY, |_, _| None);
    told_apart(wrong, "33 bands", Came::Charges(vec![]));
}

#[test]
fn at_most_31_bands() {
    let wrong = instead_of(TOO_MANY, |_, given| {
        let length = given.tariff.len();
        (length >= 640).then_some((16, length))
    });
    told_apart(wrong, "the last of 32 bands", refused(16, 640));
}

/// Every unit is looked at before any code, or every code before any unit.
#[test]
fn units_and_codes_one_after_the_other() {
    let units = instead_of(BAD_BAND, |_, given| {
        first_band(given, |bands, i| bad_unit(&bands[i])).or_else(|| first_band(given, again))
    });
    told_apart(units, "a code, then a unit", refused(16, 40));
    let codes = instead_of(BAD_BAND, |_, given| {
        first_band(given, again).or_else(|| first_band(given, |bands, i| bad_unit(&bands[i])))
    });
    told_apart(codes, "a unit, then a code", refused(16, 40));
}

/// The band that a later one has its code from.
#[test]
fn the_earlier_of_two_bands() {
    let wrong = instead_of(BAD_BAND, |_, given| {
        first_band(given, |bands, i| {
            let later = bands[i + 1..].iter().any(|band| band.code == bands[i].code);
            later || bad_unit(&bands[i])
        })
    });
    told_apart(wrong, "a code twice", refused(16, 0));
}

/// A code is held only against the band just before.
#[test]
fn codes_of_neighbours_alone() {
    let wrong = instead_of(BAD_BAND, |_, given| {
        first_band(given, |bands, i| {
            let same = i > 0 && bands[i - 1].code == bands[i].code;
            same || bad_unit(&bands[i])
        })
    });
    told_apart(wrong, "a code three times", refused(16, 60));
}

/// A unit of 0 is taken, or one of 3,600 is not, or one of 3,601 is.
#[test]
fn other_units() {
    let from_0 = instead_of(BAD_BAND, |_, given| {
        first_band(given, |bands, i| again(bands, i) || bands[i].unit > 3_600)
    });
    told_apart(from_0, "a unit of 0", Came::Charges(vec![]));
    let below_3600 = instead_of(BAD_BAND, |_, given| {
        first_band(given, |bands, i| {
            again(bands, i) || !(1..3_600).contains(&bands[i].unit)
        })
    });
    told_apart(below_3600, "by the hour", refused(16, 0));
    let to_3601 = instead_of(BAD_BAND, |_, given| {
        first_band(given, |bands, i| {
            again(bands, i) || !(1..=3_601).contains(&bands[i].unit)
        })
    });
    told_apart(to_3601, "a unit of 3,601", Came::Charges(vec![]));
}

/// All zero bytes are looked at first, then all bands, then all charges.
#[test]
fn not_record_by_record() {
    let wrong = instead_of(BAD_RECORD, |pricer, given| {
        first_record(given, |_, record| zero_byte(record))
            .or_else(|| first_record(given, |bands, record| no_band(pricer, bands, record)))
            .or_else(|| first_record(given, |bands, record| too_dear(pricer, bands, record)))
    });
    told_apart(wrong, "a band, then a zero byte", refused(9, 16));
    told_apart(wrong, "a charge, then a zero byte", refused(9, 16));
    told_apart(wrong, "a charge, then a band", refused(14, 16));
}

#[test]
fn the_band_or_the_charge_before_the_zero_byte() {
    let band = instead_of(BAD_RECORD, |pricer, given| {
        first_record(given, |bands, record| {
            no_band(pricer, bands, record)
                .or_else(|| zero_byte(record))
                .or_else(|| too_dear(pricer, bands, record))
        })
    });
    told_apart(band, "zero byte and band at once", refused(14, 0));
    let charge = instead_of(BAD_RECORD, |pricer, given| {
        first_record(given, |bands, record| {
            too_dear(pricer, bands, record)
                .or_else(|| zero_byte(record))
                .or_else(|| no_band(pricer, bands, record))
        })
    });
    told_apart(charge, "zero byte and charge at once", refused(15, 0));
}

/// What costs nothing is not looked at.
#[test]
fn no_seconds_need_no_band() {
    let wrong = instead_of(BAD_RECORD, |pricer, given| {
        first_record(given, |bands, record| {
            let talked = record[12..16] != [0; 4];
            zero_byte(record)
                .or_else(|| no_band(pricer, bands, record).filter(|_| talked))
                .or_else(|| too_dear(pricer, bands, record))
        })
    });
    let came = Came::Charges(vec![7, 9, 0]);
    told_apart(wrong, "no seconds in no band", came);
}

#[test]
fn no_seconds_need_no_zero_byte() {
    let wrong = instead_of(BAD_RECORD, |pricer, given| {
        first_record(given, |bands, record| {
            let talked = record[12..16] != [0; 4];
            zero_byte(record)
                .filter(|_| talked)
                .or_else(|| no_band(pricer, bands, record))
                .or_else(|| too_dear(pricer, bands, record))
        })
    });
    let came = Came::Charges(vec![7, 9, 0]);
    told_apart(wrong, "the last zero byte", came);
}

/// A place is a record's number, or counts on from the tariff's bytes.
#[test]
fn places_of_another_kind() {
    let numbers = instead_of(BAD_RECORD, |pricer, given| {
        bad_record(pricer, given).map(|(number, place)| (number, place / 16))
    });
    told_apart(numbers, "the last zero byte", refused(9, 2));
    let behind_the_tariff = instead_of(BAD_RECORD, |pricer, given| {
        bad_record(pricer, given).map(|(number, place)| (number, given.tariff.len() + place))
    });
    told_apart(behind_the_tariff, "no such band", refused(14, 20));
    let at_the_byte = instead_of(BAD_RECORD, |pricer, given| {
        let at = |number| if number == 9 { 7 } else { 0 };
        bad_record(pricer, given).map(|(number, place)| (number, place + at(number)))
    });
    told_apart(at_the_byte, "the zero byte", refused(9, 7));
}

/// Just enough is too little; or a byte less is enough; or the place is what is lent.
#[test]
fn another_room() {
    let more = instead_of(TOO_LITTLE, |_, given| {
        let least = given.log.len() / 16 * 10;
        (least > 0 && given.room <= least).then_some((11, 0))
    });
    told_apart(more, "the longest call by the hour", refused(11, 0));
    let less = instead_of(TOO_LITTLE, |_, given| {
        let least = given.log.len() / 16 * 10;
        (given.room + 1 < least).then_some((11, 0))
    });
    let came = Came::Charges(vec![0, 7, 9]);
    told_apart(less, "29 bytes for three", came);
    let at_its_length = instead_of(TOO_LITTLE, |pricer, given| {
        too_little(pricer, given).map(|(number, _)| (number, given.room))
    });
    told_apart(at_its_length, "9 bytes for a record", refused(11, 9));
}
