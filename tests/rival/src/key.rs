//! Pseudo keys: FNV-1a, 32 bits, of a call's four bytes, lowest first. A depth is at most 8, so only their first 8 bits matter; but those come from
//! all bits of the products before.
//!
//! A key, or its first bits with zeros behind them, is a number of 32 bits: two share as many leading bits as their exclusive-or has leading zeros.

const START: u64 = 2_166_136_261;
const PRIME: u64 = 16_777_619;

/// The pseudo key of the call in a record's low half, in the low half of what is given; the high half is left over from the last product. The products
/// are of 32 bits by 32 and have 64: of these the plainest processor makes two at a time, in the places where two records stand, and of shorter ones none.
#[inline(always)]
pub fn of_record(record: u64) -> u64 {
    let mut key = START;
    for k in 0..4 {
        let byte = record >> (8 * k) & 255;
        key = ((key ^ byte) & 0xffff_ffff) * PRIME;
    }
    key
}

/// The pseudo key of a call.
#[inline(always)]
pub fn pseudo_key(call: u32) -> u32 {
    of_record(call as u64) as u32
}

/// The first bits of a key, at most 8, as a number.
#[inline(always)]
pub fn first_bits(key: u32, depth: u32) -> u32 {
    key >> 24 >> ((8 - depth) & 31)
}

/// A number of `depth` bits, at most 8, as the first bits of a key.
#[inline(always)]
pub fn as_first_bits(number: u32, depth: u32) -> u32 {
    number << ((32 - depth) & 31)
}
