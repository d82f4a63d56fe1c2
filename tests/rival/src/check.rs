//! The quick check: does a row of the refusal table meet the job, yes or no? Each byte is looked at about once, and in the loops over
//! many bytes faults are gathered and not jumped on, so that the compiler can take many bytes at a time.

use crate::bytes::{four_at, two_at};
use crate::header::{by_length, Header, JOB_VERSION};
use crate::{exact, key, page, Refusal};

/// Every row of the refusal table but 11.
pub fn check(job: &[u8]) -> Result<(), Refusal> {
    accepted(job).map(|_| ())
}

/// The header of a job that no row meets.
#[inline(always)]
pub(crate) fn accepted(job: &[u8]) -> Result<Header, Refusal> {
    sound(job).ok_or_else(|| exact::refusal(job))
}

#[inline(always)]
fn sound(job: &[u8]) -> Option<Header> {
    let bytes = job.first_chunk()?;
    let header = Header::read(bytes);
    if !counts_sound(&header) || !offsets_sound(bytes, &header, job.len()) {
        return None;
    }
    let directory = job[32..header.table_at()].as_chunks().0;
    let table = &job[header.table_at()..header.operations_at()];
    let operations = job[header.operations_at()..header.turns_at()].as_chunks().0;
    let turns = job[header.turns_at()..].as_chunks().0;
    let fine = by_length!(header.capacity, pages_sound, table, directory, &header)
        && operations_sound(operations)
        && turns_sound(turns, header.operations);
    fine.then_some(header)
}

/// Row 3. A count less one wraps where the count is 0.
#[inline(always)]
fn counts_sound(header: &Header) -> bool {
    (header.depth <= 8)
        & (header.capacity.wrapping_sub(1) < 8)
        & (header.pages <= 256)
        & (header.in_use.wrapping_sub(1) < header.pages)
        & (header.operations <= 256)
        & (header.turns <= 16_384)
}

/// Rows 2 and 4.
#[inline(always)]
fn offsets_sound(bytes: &[u8; 32], header: &Header, length: usize) -> bool {
    (two_at(bytes, 0) == JOB_VERSION)
        & (four_at(bytes, 12) == 32)
        & (four_at(bytes, 16) as usize == header.table_at())
        & (four_at(bytes, 20) as usize == header.operations_at())
        & (four_at(bytes, 24) as usize == header.turns_at())
        & (four_at(bytes, 28) as usize == header.total())
        & (length == header.total())
}

/// Row 9. Kind and spare byte are taken as one number; of a search, which is kind 1, the charge must be zero.
#[inline(always)]
fn operations_sound(operations: &[[u8; 10]]) -> bool {
    let mut fault = 0;
    for operation in operations {
        let kind = two_at(operation, 0) as u32;
        let must_be_zero = if kind == 1 { four_at(operation, 6) } else { 0 };
        fault |= (kind.wrapping_sub(1) > 2) as u32 | must_be_zero;
    }
    fault == 0
}

/// Row 10.
#[inline(always)]
fn turns_sound(turns: &[[u8; 2]], operations: usize) -> bool {
    if operations == 0 {
        return turns.is_empty();
    }
    let last = (operations - 1) as u16;
    let mut above = 0;
    for turn in turns {
        above |= u16::from_le_bytes(*turn).saturating_sub(last);
    }
    above == 0
}

/// Rows 5 to 8, 12 and 13. Rows 5 and 7 hold for no entry exactly when every page in use is named by all the entries that its pattern
/// begins, and these are together as many as there are entries: then none of them has two owners, and none is left over.
#[inline(never)]
fn pages_sound<const N: usize>(table: &[u8], directory: &[[u8; 2]], header: &Header) -> bool {
    let (in_use, unused) = table.split_at(header.in_use * N);
    if !is_zero(unused) {
        return false;
    }
    let mut owned = 0;
    for (x, page) in in_use.as_chunks::<N>().0.iter().enumerate() {
        let local = page[0] as u32;
        let pattern = two_at(page, 2) as usize;
        if local > header.depth || pattern >> local != 0 || page[1] as usize > page::room::<N>() {
            return false;
        }
        let entries = 1 << (header.depth - local);
        let first = pattern * entries;
        owned += entries;
        if !all_name(&directory[first..first + entries], (x + 1) as u16) {
            return false;
        }
        if !records_sound(page, local, pattern as u32) {
            return false;
        }
    }
    owned == directory.len()
}

#[inline(always)]
fn is_zero(bytes: &[u8]) -> bool {
    bytes.iter().fold(0, |all, byte| all | byte) == 0
}

#[inline(always)]
fn all_name(entries: &[[u8; 2]], page: u16) -> bool {
    let mut other = 0;
    for entry in entries {
        other |= u16::from_le_bytes(*entry) ^ page;
    }
    other == 0
}

/// For each count of records, all ones for every record that is counted.
static COUNTED: [[u64; 8]; 16] = masks();

const fn masks() -> [[u64; 8]; 16] {
    let mut masks = [[0; 8]; 16];
    let mut place = 0;
    while place < 16 * 8 {
        let (count, i) = (place / 8, place % 8);
        masks[count][i] = if i < count { u64::MAX } else { 0 };
        place += 1;
    }
    masks
}

/// A page's records: their pseudo keys begin with its pattern, each call is above the one before it, and behind the last record all is zero. What does
/// not count is masked out, since the counts of pages differ, and jumps that go by them would not be foreseen. Faults are gathered in two numbers, for
/// the records are taken two at a time. Of a call less the one behind it the highest bit is 1 where they rise.
#[inline(always)]
fn records_sound<const N: usize>(page: &[u8; N], local: u32, pattern: u32) -> bool {
    if page[1] == 0 {
        return is_zero(&page[4..]);
    }
    let counted = &COUNTED[(page[1] & 15) as usize];
    let wanted = key::as_first_bits(pattern, local) as u64;
    let asked = !(u32::MAX >> (local & 31)) as u64;
    let mut fault = [0; 2];
    for i in 0..page::room::<N>() {
        let record = page::record(page, i);
        fault[i % 2] |= (key::of_record(record) ^ wanted) & asked & counted[i];
        fault[i % 2] |= record & !counted[i];
    }
    let mut falls = 0;
    for i in 1..page::room::<N>() {
        let call = |i: usize| page::record(page, i) & 0xffff_ffff;
        falls |= !call(i - 1).wrapping_sub(call(i)) & counted[i];
    }
    fault[0] | fault[1] == 0 && falls >> 63 == 0
}
