//! Faults of one page of a sound job: rows 12, 6 and 13.
//!
//! Each function writes one value into one field of one page, and gives the
//! fault that comes of it; `None` if the page stays sound, or if what comes of
//! it is another row's. An unused page has no fields: every byte of it is one
//! that should be zero.

use crate::check::page_place;
use crate::damage::{write, Fault};
use crate::job::Job;
use crate::page::{page_length, Page};
use crate::random::Random;

/// The page, if it is in use, with the place of its first byte.
fn in_use(job: &Job, number: usize) -> Option<(&Page, usize)> {
    let place = page_place(&job.counts(), number);
    (number <= job.file.in_use).then(|| (job.file.page(number), place))
}

/// Another depth. One above g is met at the depth; a lower one may leave the
/// pattern too large, and then it is met at the pattern.
pub fn depth(job: &Job, number: usize, depth: u8) -> Option<Fault> {
    let (page, place) = in_use(job, number)?;
    let met = if u32::from(depth) > job.file.depth {
        place
    } else if page.pattern >= 1 << depth {
        place + 2
    } else {
        return None;
    };
    let edits = write(place, usize::from(depth), 1);
    Some(Fault::of_page(number, 12, met, edits))
}

/// Another pattern, met if it has more bits than the depth says.
pub fn pattern(job: &Job, number: usize, pattern: u16) -> Option<Fault> {
    let (page, place) = in_use(job, number)?;
    let edits = write(place + 2, usize::from(pattern), 2);
    let fault = Fault::of_page(number, 12, place + 2, edits);
    (u32::from(pattern) >= 1 << page.depth).then_some(fault)
}

/// Another count. Above c it is row 6. With fewer counted, the records behind
/// are unused ones, so their first byte that is not zero is row 13.
pub fn count(job: &Job, number: usize, count: u8) -> Option<Fault> {
    let (page, place) = in_use(job, number)?;
    let counted = usize::from(count);
    let mut edits = write(place + 1, counted, 1);
    if counted > job.file.capacity {
        return Some(Fault::of_page(number, 6, place, edits));
    }
    let bytes = page.to_bytes(job.file.capacity);
    let behind = 4 + 8 * counted..4 + 8 * page.records.len();
    let first = behind.clone().find(|at| bytes[*at] != 0)?;
    // These bytes are written as they are: a fault that changes one of them
    // would move the place, and so the two count as overlapping.
    edits.extend(behind.map(|at| (place + at, bytes[at])));
    Some(Fault::of_page(number, 13, place + first, edits))
}

/// Another value of one byte, counted from the page's first, that should be
/// zero: behind the records, or anywhere on an unused page.
pub fn byte(job: &Job, number: usize, at: usize, value: u8) -> Option<Fault> {
    let place = page_place(&job.counts(), number) + at;
    let should_be_zero = match in_use(job, number) {
        Some((page, _)) => at >= 4 + 8 * page.records.len(),
        None => true,
    };
    let fault = Fault::of_page(number, 13, place, vec![(place, value)]);
    (should_be_zero && value != 0).then_some(fault)
}

/// A fault of row 12 in some page.
pub fn some_depth_or_pattern(random: &mut Random, job: &Job) -> Option<Fault> {
    let number = random.between(1, job.file.in_use);
    let (local, global) = (job.file.page(number).depth, job.file.depth);
    match random.below(5) {
        0 => depth(job, number, random.below(local as usize + 1) as u8),
        1 | 2 => depth(job, number, random.between(global as usize + 1, 255) as u8),
        _ => pattern(job, number, random.between(1 << local, 65_535) as u16),
    }
}

/// A fault of row 6 in some page.
pub fn some_count(random: &mut Random, job: &Job) -> Fault {
    let number = random.between(1, job.file.in_use);
    let above = random.between(job.file.capacity + 1, 255);
    count(job, number, above as u8).expect("a count above c")
}

/// A fault of row 13 in some page: a byte of an unused page or record, or a
/// record that is not counted.
pub fn some_byte(random: &mut Random, job: &Job) -> Option<Fault> {
    let number = random.between(1, job.file.pages.len());
    let held = job.file.page(number).records.len();
    if held > 0 && random.percent(30) {
        return count(job, number, held as u8 - 1);
    }
    let at = random.below(page_length(job.file.capacity));
    byte(job, number, at, random.nonzero_byte())
}
