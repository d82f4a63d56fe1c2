//! Tidying a charge file between runs ("Tidying between runs").
//!
//! It is done as it is said: a pair of pages is joined while one is left, one
//! pair after another. Which of them comes first is not said, so it can be
//! chosen from outside, and a test can ask whether it matters.

use crate::check::check;
use crate::file::ChargeFile;
use crate::job::{Job, MAX_DEPTH};
use crate::page::Page;
use crate::run::Outcome;

/// The first byte of the operation count, where 18 is told.
const OPERATION_COUNT_PLACE: u32 = 8;

/// Two pages that can be joined, by their places in a list of pages; the one
/// with bit 0 first.
pub type Pair = (usize, usize);

/// Tidies a charge file at a wanted depth, given the output's length in bytes.
pub fn tidy(file: &[u8], depth: u64, room: usize) -> Outcome {
    tidy_choosing(file, depth, room, |pairs| pairs[0])
}

/// The same with the pairs joined in another order: each time all pairs that
/// there are are shown, and one of them is chosen.
pub fn tidy_choosing(
    file: &[u8],
    depth: u64,
    room: usize,
    choose: impl FnMut(&[Pair]) -> Pair,
) -> Outcome {
    match tidied(file, depth, room, choose) {
        Ok(result) => Outcome::Done { result },
        Err((number, place)) => Outcome::Refused { number, place },
    }
}

/// The tidied file's bytes, or number and place of a refusal: "18 (operations
/// present, at their count) after the file's own refusals, then 19 (wanted depth
/// above 8 or below the depth of a page left after joining, place 0), then 11,
/// an output under the tidied file's length", which is at place 0 too.
fn tidied(
    file: &[u8],
    depth: u64,
    room: usize,
    choose: impl FnMut(&[Pair]) -> Pair,
) -> Result<Vec<u8>, (u32, u32)> {
    if let Some(own) = check(file) {
        return Err(own);
    }
    let Job {
        file, operations, ..
    } = Job::from_bytes(file);
    if !operations.is_empty() {
        return Err((18, OPERATION_COUNT_PLACE));
    }
    let in_use = file.pages[..file.in_use].to_vec();
    let left = join_all(in_use, file.capacity, choose);
    let deeper = |page: &Page| u64::from(page.depth) > depth;
    if depth > MAX_DEPTH as u64 || left.iter().any(deeper) {
        return Err((19, 0));
    }
    let bytes = Job::charge_file(&written(&file, &left, depth as u32));
    if room < bytes.len() {
        return Err((11, 0));
    }
    Ok(bytes)
}

/// The pages left when pairs are joined "until no such pair is left".
pub fn join_all(
    mut pages: Vec<Page>,
    capacity: usize,
    mut choose: impl FnMut(&[Pair]) -> Pair,
) -> Vec<Page> {
    loop {
        let pairs = pairs(&pages, capacity);
        if pairs.is_empty() {
            return pages;
        }
        let (zero, one) = choose(&pairs);
        pages[zero] = join(&pages[zero], &pages[one]);
        pages.remove(one);
    }
}

/// All pairs: "two pages of equal depth whose patterns differ only in the last
/// bit", "while together they hold at most c records".
pub fn pairs(pages: &[Page], capacity: usize) -> Vec<Pair> {
    let mut pairs = Vec::new();
    for (z, zero) in pages.iter().enumerate() {
        let other_half = |one: &Page| one.depth == zero.depth && one.pattern == zero.pattern + 1;
        if zero.pattern % 2 == 1 {
            continue;
        }
        if let Some(o) = pages.iter().position(other_half) {
            if zero.records.len() + pages[o].records.len() <= capacity {
                pairs.push((z, o));
            }
        }
    }
    pairs
}

/// The page that a pair becomes: the pattern loses its last bit, and the records
/// of both "stand by rising call number".
pub fn join(zero: &Page, one: &Page) -> Page {
    let mut records = [&zero.records[..], &one.records[..]].concat();
    records.sort();
    Page {
        depth: zero.depth - 1,
        pattern: zero.pattern / 2,
        records,
    }
}

/// The file of these pages: "the pages are then numbered by their first entry,
/// and the directory is written at the wanted depth. P is kept, and pages no
/// longer in use are zero."
fn written(file: &ChargeFile, left: &[Page], depth: u32) -> ChargeFile {
    let mut tidied = ChargeFile::empty(depth, file.capacity, file.pages.len());
    tidied.in_use = 0;
    let mut numbers = vec![0; left.len()];
    for j in 0..1 << depth {
        let owner = left.iter().position(|page| page.owns(j, depth));
        let owner = owner.expect("every entry has a page");
        if numbers[owner] == 0 {
            tidied.in_use += 1;
            numbers[owner] = tidied.in_use;
            *tidied.page_mut(numbers[owner]) = left[owner].clone();
        }
        tidied.directory[j] = numbers[owner];
    }
    assert_eq!(tidied.in_use, left.len(), "every page has an entry");
    tidied
}
