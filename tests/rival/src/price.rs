//! The charges of a switch's log by a tariff. One walk over the log refuses, and one writes, since nothing is written before every record is known to be
//! sound. Of most records the first asks only whether they are shorter than any call of their band that could cost too much, which the tariff tells
//! beforehand; the second divides by no unit, but multiplies by its inverse.

use crate::bytes::{four_at, two_at};
use crate::Refusal;

const BAND: usize = 20;
const RECORD: usize = 16;
const INSERT: usize = 10;
const MAX_BANDS: usize = 32;

/// The class of each hour, as the place of its price. A day has 24 hours; there are more so that no index is tested.
const CLASSES: [u8; 32] = [
    0, 0, 0, 0, 0, 0, 0, 1, 2, 2, 2, 2, 2, 2, 2, 2, 2, 2, 1, 1, 0, 0, 0, 0, 0, 0, 0, 0, 0, 0, 0, 0,
];

/// 2^64 over the seconds of a day, rounded up. Seconds times it, modulo 2^64, are what they have gone of their day in parts of 2^64, and up to 2^32 more.
const DAY: u64 = u64::MAX / 86_400 + 1;

/// By how many bits a product with an inverse is shifted.
const SHIFT: u32 = 44;

/// A band, made ready.
#[derive(Clone, Copy)]
struct Band {
    /// In any class, a call of fewer seconds costs no more than can be told. None has fewer than none.
    short: u64,
    free: u32,
    /// The unit less one, so that a division rounds up.
    less_one: u32,
    /// 2^44 over the unit, rounded up. It is less than one unit too large in 2^44, so that for a number up to 2^32 + 3,600 the quotient is exact.
    inverse: u64,
    fee: u32,
    /// In each class; the last stands for none.
    prices: [u32; 4],
}

impl Band {
    /// The band of the codes that no band has.
    const NONE: Band = Band {
        short: 0,
        free: 0,
        less_one: 0,
        inverse: 0,
        fee: 0,
        prices: [0; 4],
    };

    #[inline(always)]
    fn ready(bytes: &[u8; BAND], unit: u32) -> Band {
        let (free, fee) = (bytes[1] as u32, four_at(bytes, 4));
        let prices = [8, 12, 16, 16].map(|place| four_at(bytes, place));
        let dearest = prices[0].max(prices[1]).max(prices[2]);
        let units = (u32::MAX - fee).checked_div(dearest).unwrap_or(u32::MAX);
        Band {
            short: free as u64 + units as u64 * unit as u64 + 1,
            free,
            less_one: unit - 1,
            inverse: (1u64 << SHIFT).div_ceil(unit as u64),
            fee,
            prices,
        }
    }

    #[inline(always)]
    fn charge(&self, record: &[u8; RECORD]) -> u64 {
        let (start, talked) = (four_at(record, 8), four_at(record, 12));
        let of_day = (start as u64).wrapping_mul(DAY);
        let hour = (of_day as u128 * 24 >> 64) as usize;
        let price = self.prices[CLASSES[hour & 31] as usize & 3];
        let beyond = talked.saturating_sub(self.free) as u64 + self.less_one as u64;
        let units = (beyond as u128 * self.inverse as u128 >> SHIFT) as u64;
        let charge = self.fee as u64 + units * price as u64;
        if talked == 0 {
            0
        } else {
            charge
        }
    }
}

/// A tariff made ready: which band has a code, and the bands. The last is none's.
struct Tariff {
    by_code: [u8; 256],
    bands: [Band; MAX_BANDS + 1],
}

impl Tariff {
    /// The bands, or the refusal of the first that is bad.
    #[inline(always)]
    fn ready(tariff: &[[u8; BAND]]) -> Result<Tariff, Refusal> {
        let mut ready = Tariff {
            by_code: [MAX_BANDS as u8; 256],
            bands: [Band::NONE; MAX_BANDS + 1],
        };
        for (i, bytes) in tariff.iter().enumerate() {
            let number = &mut ready.by_code[bytes[0] as usize];
            let unit = two_at(bytes, 2) as u32;
            if *number as usize != MAX_BANDS || unit.wrapping_sub(1) >= 3_600 {
                return Err((16, BAND * i));
            }
            *number = i as u8;
            ready.bands[i] = Band::ready(bytes, unit);
        }
        Ok(ready)
    }

    #[inline(always)]
    fn band(&self, record: &[u8; RECORD]) -> &Band {
        let number = self.by_code[record[6] as usize] as usize;
        &self.bands[number.min(MAX_BANDS)]
    }

    /// The number of a record's refusal, if there is one.
    #[cold]
    #[inline(never)]
    fn refusal(&self, record: &[u8; RECORD]) -> Option<u32> {
        let band = self.band(record);
        if record[7] != 0 {
            Some(9)
        } else if band.short == 0 {
            Some(14)
        } else {
            (band.charge(record) > u32::MAX as u64).then_some(15)
        }
    }
}

/// Writes an insert for each record of a log: gives the length of what is written, or the refusal.
pub fn price(tariff: &[u8], log: &[u8], out: &mut [u8]) -> Result<usize, Refusal> {
    let (bands, []) = tariff.as_chunks() else {
        return Err((1, tariff.len()));
    };
    let (records, []) = log.as_chunks() else {
        return Err((1, log.len()));
    };
    if bands.len() > MAX_BANDS {
        return Err((16, tariff.len()));
    }
    let tariff = Tariff::ready(bands)?;
    for (i, record) in records.iter().enumerate() {
        let short = (four_at(record, 12) as u64) < tariff.band(record).short;
        if record[7] != 0 || !short {
            if let Some(number) = tariff.refusal(record) {
                return Err((number, RECORD * i));
            }
        }
    }
    let length = INSERT * records.len();
    let inserts = out.get_mut(..length).ok_or((11, 0))?.as_chunks_mut().0;
    for (insert, record) in inserts.iter_mut().zip(records) {
        *insert = insert_of(four_at(record, 0), tariff.band(record).charge(record));
    }
    Ok(length)
}

/// Kind 2, a zero byte, the call and its charge.
#[inline(always)]
fn insert_of(call: u32, charge: u64) -> [u8; INSERT] {
    let whole = 2 | (call as u128) << 16 | (charge as u128) << 48;
    let bytes = whole.to_le_bytes();
    *bytes.first_chunk().expect("16 bytes have a first 10")
}
