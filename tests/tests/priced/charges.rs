//! Charges worked out by hand, at the seconds and sums where they change.
//!
//! Without another band a call is one in town: fee 5, and for each minute begun behind the first ten seconds 2 in the cheap hours, 3 in the standard hours
//! and 7 in the dear hours.

use chargefile_tests::tariff::{insert_bytes, log_bytes, tariff_bytes, Band, Logged};

use super::{call, done, oclock, Case, TOWN};

pub fn cases() -> Vec<Case> {
    [seconds(), hours(), days(), bands(), sums(), logs()].concat()
}

/// A log with its charges, lent no more than it must be.
fn case(name: &'static str, bands: &[Band], records: &[Logged], charges: &[u32]) -> Case {
    assert_eq!(records.len(), charges.len(), "{name}: a charge for each");
    let inserts = records.iter().zip(charges);
    let inserts = inserts.map(|(record, charge)| insert_bytes(record.call, *charge));
    Case {
        name,
        tariff: tariff_bytes(bands),
        log: log_bytes(records),
        room: 10 * records.len(),
        wanted: done(inserts.flatten().collect()),
    }
}

/// One call in town that starts at midnight.
fn talked(name: &'static str, seconds: u32, charge: u32) -> Case {
    case(name, &[TOWN], &[call(0, seconds)], &[charge])
}

/// One call of 11 seconds in town: fee, and one unit.
fn started(name: &'static str, start: u32, charge: u32) -> Case {
    case(name, &[TOWN], &[call(start, 11)], &[charge])
}

/// One call at midnight in a band like the one in town.
fn of(name: &'static str, band: Band, seconds: u32, charge: u32) -> Case {
    case(name, &[band], &[call(0, seconds)], &[charge])
}

fn seconds() -> Vec<Case> {
    let not_free = Band { free: 0, ..TOWN };
    let long_free = Band { free: 255, ..TOWN };
    let by_second = Band { unit: 1, ..TOWN };
    let by_hour = Band {
        unit: 3_600,
        ..TOWN
    };
    let five_minutes = Band { unit: 300, ..TOWN };
    vec![
        talked("no seconds", 0, 0),
        talked("one second", 1, 5),
        talked("the last free second", 10, 5),
        talked("behind the free seconds", 11, 5 + 2),
        talked("a unit's last second", 70, 5 + 2),
        talked("the second unit's first second", 71, 5 + 2 * 2),
        talked("the second unit's last second", 130, 5 + 2 * 2),
        talked("more seconds than 16 bits", 65_536, 5 + 2 * 1_093),
        of("nothing free, a second", not_free, 1, 5 + 2),
        of("nothing free, a unit", not_free, 60, 5 + 2),
        of("nothing free, a second more", not_free, 61, 5 + 2 * 2),
        of("nothing free, no seconds", not_free, 0, 0),
        of("255 free seconds", long_free, 255, 5),
        of("behind 255 free seconds", long_free, 256, 5 + 2),
        of("by the second", by_second, 31, 5 + 2 * 21),
        of("by the hour", by_hour, 3_610, 5 + 2),
        of("by the hour, a second more", by_hour, 3_611, 5 + 2 * 2),
        of("a unit of 300 seconds", five_minutes, 310, 5 + 2),
    ]
}

/// The charge of one unit in each hour of a day, read off the words: hours 0 to 6, 7, 8 to 17, 18 and 19, 20 to 23.
const OF_THE_HOURS: [u32; 24] = [
    7, 7, 7, 7, 7, 7, 7, 8, 12, 12, 12, 12, 12, 12, 12, 12, 12, 12, 8, 8, 7, 7, 7, 7,
];

fn hours() -> Vec<Case> {
    let first: Vec<Logged> = (0..24).map(|hour| call(oclock(hour), 11)).collect();
    let last: Vec<Logged> = (1..25).map(|hour| call(oclock(hour) - 1, 11)).collect();
    vec![
        started("the last cheap second of the morning", 25_199, 5 + 2),
        started("the first standard second", 25_200, 5 + 3),
        started("the last standard second of the morning", 28_799, 5 + 3),
        started("the first dear second", 28_800, 5 + 7),
        started("the last dear second", 64_799, 5 + 7),
        started("the first standard second of the evening", 64_800, 5 + 3),
        started("the last standard second", 71_999, 5 + 3),
        started("the first cheap second of the evening", 72_000, 5 + 2),
        started("the last second of the day", 86_399, 5 + 2),
        case("the hours' first seconds", &[TOWN], &first, &OF_THE_HOURS),
        case("the hours' last seconds", &[TOWN], &last, &OF_THE_HOURS),
        // from 6:56:40 for four hours: 240 minutes begun, all of them cheap
        case(
            "from a cheap hour into a dear one",
            &[TOWN],
            &[call(25_000, 4 * 3_600)],
            &[5 + 2 * 240],
        ),
        // from the last dear second for an hour
        case(
            "from a dear hour into a standard one",
            &[TOWN],
            &[call(64_799, 3_600)],
            &[5 + 7 * 60],
        ),
    ]
}

fn days() -> Vec<Case> {
    const DAY: u32 = oclock(24);
    vec![
        started("midnight of the second day", DAY, 5 + 2),
        started("dear on the second day", DAY + oclock(8), 5 + 7),
        started(
            "the last dear hour of the month",
            30 * DAY + oclock(17),
            5 + 7,
        ),
        started("the last second of the month", 31 * DAY - 1, 5 + 2),
        started("behind 31 days", 31 * DAY + oclock(19), 5 + 3),
        // hour 1,193,000, which is 49,708 days and 8 hours
        started("dear in the far future", 4_294_800_000, 5 + 7),
        // hour 1,193,046, which is 49,710 days and 6 hours
        started("the last start there is", 4_294_967_295, 5 + 2),
    ]
}

/// A band with this code and fee that costs nothing for its units.
fn fee_only(code: u8, fee: u32) -> Band {
    let prices = [0; 3];
    Band {
        code,
        fee,
        prices,
        ..TOWN
    }
}

fn of_band(band: u8) -> Logged {
    let call = call(oclock(12), 500);
    Logged { band, ..call }
}

fn bands() -> Vec<Case> {
    let ends = [fee_only(255, 40), fee_only(7, 41), fee_only(0, 42)];
    let falling: Vec<Band> = (0..32)
        .map(|i| fee_only(31 - i, 100 + u32::from(i)))
        .collect();
    let high: Vec<Band> = (0..32)
        .map(|i| fee_only(224 + i, 100 + u32::from(i)))
        .collect();
    vec![
        case(
            "codes 0 and 255",
            &ends,
            &[of_band(0), of_band(255), of_band(7)],
            &[42, 40, 41],
        ),
        case("the last of 32 bands", &falling, &[of_band(0)], &[131]),
        case("the first of 32 bands", &falling, &[of_band(31)], &[100]),
        case("32 high codes", &high, &[of_band(255)], &[131]),
        case("a band that no call has", &ends, &[of_band(7)], &[41]),
    ]
}

/// One for each second, without a fee and with nothing free.
fn a_second(price: u32) -> Band {
    Band {
        free: 0,
        unit: 1,
        fee: 0,
        prices: [price, 0, 0],
        ..TOWN
    }
}

fn sums() -> Vec<Case> {
    const MOST: u32 = 4_294_967_295;
    let up_to = |fee| Band { fee, ..TOWN };
    let longest = Band {
        free: 255,
        fee: 255,
        ..a_second(1)
    };
    let longest_by_hour = Band {
        unit: 3_600,
        ..a_second(1)
    };
    vec![
        of("fee and unit to 2^32 - 1", up_to(MOST - 2), 11, MOST),
        of("a fee of 2^32 - 1", up_to(MOST), 10, MOST),
        of("the highest fee, and no seconds", up_to(MOST), 0, 0),
        // 65,537 times 65,535 is 2^32 - 1
        of("units to 2^32 - 1", a_second(65_537), 65_535, MOST),
        of("a unit at 2^32 - 1", a_second(MOST), 1, MOST),
        of("the longest call to 2^32 - 1", longest, MOST, MOST),
        of(
            "the longest call by the hour",
            longest_by_hour,
            MOST,
            1_193_047,
        ),
        of("units that cost nothing", fee_only(1, 9), MOST, 9),
    ]
}

fn logs() -> Vec<Case> {
    let numbered = |number, extension, talked| Logged {
        call: number,
        extension,
        ..call(oclock(9), talked)
    };
    let not_sorted = [
        numbered(9, 1, 11),
        numbered(3, 65_535, 71),
        numbered(u32::MAX, 0, 0),
        numbered(9, 1, 131),
        numbered(9, 1, 11),
    ];
    let charges = [12, 19, 0, 26, 12];
    let long_number = numbered(0x0403_0201, 0x0605, 0x0001_0000);
    let high_fee = fee_only(1, 0x0A0B_0C0D);
    let just_enough = case("more lent than needed", &[TOWN], &[call(0, 11)], &[7]);
    vec![
        case("nothing at all", &[], &[], &[]),
        case("no calls", &[TOWN], &[], &[]),
        case(
            "the log's order, calls twice",
            &[TOWN],
            &not_sorted,
            &charges,
        ),
        case("every byte", &[high_fee], &[long_number], &[0x0A0B_0C0D]),
        Case {
            room: 23,
            ..just_enough
        },
    ]
}
