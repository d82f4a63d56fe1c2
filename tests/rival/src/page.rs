//! A page's bytes: local depth, count, pattern, records. A record is taken as one number of 8 bytes, with the call in its low half.
//! Records stand by rising call.

use crate::key;

/// How many records a page of this length takes.
#[inline(always)]
pub const fn room<const N: usize>() -> usize {
    (N - 4) / 8
}

#[inline(always)]
pub fn record<const N: usize>(page: &[u8; N], i: usize) -> u64 {
    u64::from_le_bytes(page[4..].as_chunks().0[i])
}

#[inline(always)]
pub fn put_record<const N: usize>(page: &mut [u8; N], i: usize, record: u64) {
    page[4..].as_chunks_mut().0[i] = record.to_le_bytes();
}

#[inline(always)]
pub fn charge_of(record: u64) -> u32 {
    (record >> 32) as u32
}

/// Where the call's record stands. All records are looked at, also behind a higher call and those not in use, since to stop there would
/// need a jump, and at most seven are spared; a bit for each.
#[inline(always)]
pub fn find<const N: usize>(page: &[u8; N], call: u32) -> Option<usize> {
    let mut found = 0u32;
    for i in 0..room::<N>() {
        found |= ((record(page, i) as u32 == call) as u32) << i;
    }
    found &= (1 << (page[1] & 15)) - 1;
    (found != 0).then_some(found.trailing_zeros() as usize)
}

/// Where the pseudo keys of a full page's records differ from this one: each exclusive-or it, and zeros behind the last record.
#[inline(always)]
pub fn differences<const N: usize>(page: &[u8; N], key: u32) -> [u32; 8] {
    let mut differences = [0; 8];
    for (i, difference) in differences.iter_mut().take(room::<N>()).enumerate() {
        *difference = key::of_record(record(page, i)) as u32 ^ key;
    }
    differences
}

/// Which of these differences have a zero behind so many bits, a bit for each.
#[inline(always)]
pub fn along(differences: &[u32; 8], shared: u32) -> u8 {
    let mut along = 0;
    for (i, difference) in differences.iter().enumerate() {
        along |= (!difference >> ((31 - shared) & 31) & 1) << i;
    }
    along as u8
}

/// Puts a record before the first with a higher call; the page has room. The higher ones move up from the last on: most calls that come in are above
/// those that are there.
#[inline(always)]
pub fn insert<const N: usize>(page: &mut [u8; N], own: u64) {
    let mut at = page[1] as usize & 7;
    while at > 0 && record(page, at - 1) as u32 > own as u32 {
        put_record(page, at, record(page, at - 1));
        at -= 1;
    }
    put_record(page, at, own);
    page[1] += 1;
}

/// Takes record `at` out and closes the gap.
#[inline(always)]
pub fn remove<const N: usize>(page: &mut [u8; N], at: usize) {
    for i in 0..room::<N>() {
        let here = record(page, i);
        let next = if i + 1 < room::<N>() {
            record(page, i + 1)
        } else {
            0
        };
        put_record(page, i, if i < at { here } else { next });
    }
    page[1] -= 1;
}
