//! Charges worked out from the switch's log ("The tariff").
//!
//! It is done as it is said: the tariff is looked at band by band, then the log
//! record by record, and each record's charge is worked out in whole seconds and
//! whole units.

use crate::little_endian::{four_at, push_four, push_two, two_at};
use crate::run::Outcome;

/// "A log record is 16 bytes".
pub const RECORD_LENGTH: usize = 16;
/// "Bands of 20 bytes".
pub const BAND_LENGTH: usize = 20;
/// "A tariff has at most 32 bands".
pub const MAX_BANDS: usize = 32;
/// "Unit in seconds (2, from 1 to 3,600)".
pub const MAX_UNIT: u16 = 3_600;
/// "Under 10 bytes a record": an insert is an operation of a job.
pub const INSERT_LENGTH: usize = 10;
/// An hour has so many seconds.
pub const HOUR: u32 = 3_600;

/// The kind of an insert, in the first byte of an operation.
const INSERT: u8 = 2;

/// Where a record has its spare byte, which is to be zero.
const ZERO_PLACE: usize = 7;

/// What a call costs depends on the class of its hour. The numbers are the order
/// in which a band has the prices.
#[derive(Clone, Copy, Debug, PartialEq, Eq)]
pub enum Class {
    Cheap = 0,
    Standard = 1,
    Dear = 2,
}

/// A band: "code (1), free seconds (1), unit in seconds (2), connection fee (4),
/// and price for each started unit in the cheap, standard and dear class (4
/// each)".
#[derive(Clone, Copy, Debug, PartialEq, Eq)]
pub struct Band {
    pub code: u8,
    /// The free seconds.
    pub free: u8,
    /// How many seconds a unit has.
    pub unit: u16,
    /// The connection fee.
    pub fee: u32,
    /// The price of a unit in each class, by the numbers of the classes.
    pub prices: [u32; 3],
}

/// A record of the switch's log: "call number (4), extension (2), band (1), zero
/// (1), start in seconds from the month's beginning (4), seconds talked (4)".
#[derive(Clone, Copy, Debug, PartialEq, Eq)]
pub struct Logged {
    pub call: u32,
    pub extension: u16,
    /// The code of a band.
    pub band: u8,
    pub start: u32,
    pub talked: u32,
}

impl Band {
    /// The band in 20 bytes, whatever they are.
    pub fn from_bytes(bytes: &[u8]) -> Band {
        Band {
            code: bytes[0],
            free: bytes[1],
            unit: two_at(bytes, 2) as u16,
            fee: four_at(bytes, 4),
            prices: [8, 12, 16].map(|place| four_at(bytes, place)),
        }
    }

    /// The band's 20 bytes.
    pub fn to_bytes(&self) -> Vec<u8> {
        let mut bytes = vec![self.code, self.free];
        push_two(&mut bytes, usize::from(self.unit));
        push_four(&mut bytes, self.fee);
        for price in self.prices {
            push_four(&mut bytes, price);
        }
        bytes
    }

    /// What a call of this band costs, were there no limit to it: "No seconds
    /// talked costs nothing. Otherwise the charge is the fee, plus price times the
    /// started units beyond the free seconds."
    pub fn charge(&self, start: u32, talked: u32) -> u64 {
        if talked == 0 {
            return 0;
        }
        let price = self.prices[class(hour(start)) as usize];
        u64::from(self.fee) + u64::from(price) * self.started_units(talked)
    }

    /// The units begun behind the free seconds; within these there are none.
    fn started_units(&self, talked: u32) -> u64 {
        let (talked, free) = (u64::from(talked), u64::from(self.free));
        if talked <= free {
            return 0;
        }
        let (beyond, unit) = (talked - free, u64::from(self.unit));
        let begun = u64::from(beyond % unit > 0);
        beyond / unit + begun
    }
}

impl Logged {
    /// The record in 16 bytes; its spare byte is not looked at.
    pub fn from_bytes(bytes: &[u8]) -> Logged {
        Logged {
            call: four_at(bytes, 0),
            extension: two_at(bytes, 4) as u16,
            band: bytes[6],
            start: four_at(bytes, 8),
            talked: four_at(bytes, 12),
        }
    }

    /// The record's 16 bytes.
    pub fn to_bytes(&self) -> Vec<u8> {
        let mut bytes = Vec::new();
        push_four(&mut bytes, self.call);
        push_two(&mut bytes, usize::from(self.extension));
        bytes.extend([self.band, 0]);
        push_four(&mut bytes, self.start);
        push_four(&mut bytes, self.talked);
        bytes
    }
}

/// "Start over 3,600, rounded down, modulo 24."
pub fn hour(start: u32) -> u32 {
    start / HOUR % 24
}

/// "The class of each of the 24 hours is fixed: 0 to 6 and 20 to 23 cheap, 7, 18
/// and 19 standard, 8 to 17 dear."
pub fn class(hour: u32) -> Class {
    match hour {
        0..=6 | 20..=23 => Class::Cheap,
        7 | 18 | 19 => Class::Standard,
        8..=17 => Class::Dear,
        _ => panic!("a day has no hour {hour}"),
    }
}

/// A tariff's bytes: its bands, one behind the other.
pub fn tariff_bytes(bands: &[Band]) -> Vec<u8> {
    bands.iter().flat_map(Band::to_bytes).collect()
}

/// A log's bytes: its records, one behind the other.
pub fn log_bytes(records: &[Logged]) -> Vec<u8> {
    records.iter().flat_map(Logged::to_bytes).collect()
}

/// The insert of a call at its charge, as an operation of a job.
pub fn insert_bytes(call: u32, charge: u32) -> Vec<u8> {
    let mut bytes = vec![INSERT, 0];
    push_four(&mut bytes, call);
    push_four(&mut bytes, charge);
    bytes
}

/// Works out the charges of a log by a tariff, given the output's length in bytes.
pub fn price(tariff: &[u8], log: &[u8], room: usize) -> Outcome {
    match priced(tariff, log, room) {
        Ok(result) => Outcome::Done { result },
        Err((number, place)) => Outcome::Refused { number, place },
    }
}

/// "An insert for each record, in log order", or number and place of a refusal:
/// "1 first for a tariff that is not whole bands, then for a log that is not whole
/// records, at its length; 16; then record by record, at that record, 9, 14, 15;
/// then 11, under 10 bytes a record, at place 0". "Places count within the buffer
/// concerned."
fn priced(tariff: &[u8], log: &[u8], room: usize) -> Result<Vec<u8>, (u32, u32)> {
    if tariff.len() % BAND_LENGTH != 0 {
        return Err((1, tariff.len() as u32));
    }
    if log.len() % RECORD_LENGTH != 0 {
        return Err((1, log.len() as u32));
    }
    let bands: Vec<Band> = tariff.chunks(BAND_LENGTH).map(Band::from_bytes).collect();
    if let Some(place) = bad_band(&bands) {
        return Err((16, place as u32));
    }
    let mut inserts = Vec::new();
    for (number, record) in log.chunks(RECORD_LENGTH).enumerate() {
        let place = (RECORD_LENGTH * number) as u32;
        let insert = insert_of(record, &bands).map_err(|refusal| (refusal, place))?;
        inserts.extend(insert);
    }
    if room < inserts.len() {
        return Err((11, 0));
    }
    Ok(inserts)
}

/// Where a tariff is refused 16: "more than 32 bands, at the length; else the first
/// band with an earlier band's code or a bad unit".
fn bad_band(bands: &[Band]) -> Option<usize> {
    if bands.len() > MAX_BANDS {
        return Some(BAND_LENGTH * bands.len());
    }
    let bad = |number: &usize| {
        let (earlier, band) = (&bands[..*number], &bands[*number]);
        let same_code = earlier.iter().any(|other| other.code == band.code);
        same_code || band.unit < 1 || band.unit > MAX_UNIT
    };
    let first = (0..bands.len()).find(bad)?;
    Some(BAND_LENGTH * first)
}

/// The insert of a record, or the number of its refusal: "9 for the zero byte, 14
/// (no such band), 15 (charge above 2^32 - 1)". A call of no seconds needs its zero
/// byte and its band like any other.
fn insert_of(bytes: &[u8], bands: &[Band]) -> Result<Vec<u8>, u32> {
    if bytes[ZERO_PLACE] != 0 {
        return Err(9);
    }
    let record = Logged::from_bytes(bytes);
    let its_own = bands.iter().find(|band| band.code == record.band);
    let charge = its_own.ok_or(14_u32)?.charge(record.start, record.talked);
    let charge = u32::try_from(charge).map_err(|_| 15_u32)?;
    Ok(insert_bytes(record.call, charge))
}
