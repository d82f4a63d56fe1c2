//! The inn of examples/: its charge file, its tariff, the log of its switch, and the
//! job that these come to.

use crate::by_hand::insert;
use crate::deal;
use crate::examples_parts::even_file;
use crate::job::Job;
use crate::tariff::{log_bytes, tariff_bytes, Band, Logged};

/// The charge file at the month's beginning: one empty page, and three free ones.
pub fn inn() -> Job {
    Job {
        file: even_file(2, 3, 4, 0),
        operations: vec![],
        turns: vec![],
    }
}

fn band(code: u8, free: u8, unit: u16, fee: u32, prices: [u32; 3]) -> Band {
    Band {
        code,
        free,
        unit,
        fee,
        prices,
    }
}

/// Calls within the town, far calls, and calls that the other side pays for.
pub fn bands() -> [Band; 3] {
    [
        band(1, 0, 60, 5, [2, 3, 4]),
        band(2, 10, 20, 20, [3, 5, 8]),
        band(9, 255, 3_600, 0, [0, 0, 0]),
    ]
}

/// A record, with what its call costs as it was worked out by hand.
pub struct Slip {
    pub record: Logged,
    pub charge: u32,
}

fn slip(call: u32, extension: u16, band: u8, when: [u32; 4], talked: u32, charge: u32) -> Slip {
    let [day, hour, minute, second] = when;
    let record = Logged {
        call,
        extension,
        band,
        start: 86_400 * (day - 1) + 3_600 * hour + 60 * minute + second,
        talked,
    };
    Slip { record, charge }
}

/// Six calls, by day of the month and time of day.
pub fn slips() -> [Slip; 6] {
    [
        // Hour 6 is cheap; 61 seconds are two started minutes.
        slip(40, 12, 1, [1, 6, 59, 59], 61, 5 + 2 * 2),
        // Hour 7 is standard; one minute.
        slip(41, 12, 1, [1, 7, 0, 0], 60, 5 + 3),
        // Its ten seconds are free, and the fee is due.
        slip(42, 30, 2, [2, 8, 0, 0], 10, 20),
        // One second more, in hour 8, which is dear: a started unit.
        slip(43, 30, 2, [2, 8, 0, 5], 11, 20 + 8),
        // Hour 19 is standard, though nearly all of it is talked in hour 20; 40
        // seconds beyond the free ones are two units.
        slip(44, 7, 2, [2, 19, 59, 59], 50, 20 + 2 * 5),
        // Nobody answered.
        slip(47, 7, 9, [31, 23, 59, 59], 0, 0),
    ]
}

/// The bytes of examples/inn.tariff and of examples/inn.log.
pub fn inn_tariff() -> Vec<u8> {
    tariff_bytes(&bands())
}

pub fn inn_log() -> Vec<u8> {
    log_bytes(&slips().map(|slip| slip.record))
}

/// The inn's charge file with an insert for each record, and turns dealt for them.
pub fn priced() -> Job {
    let inserts = slips().map(|slip| insert(slip.record.call, slip.charge));
    let unturned = Job {
        operations: inserts.to_vec(),
        ..inn()
    };
    unturned.with_list(&deal::list(&unturned))
}
