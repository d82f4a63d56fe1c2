//! Number and place of a refusal, row by row in the order in which they are tried: only for jobs that the quick check does not accept, so not tuned.

use crate::bytes::{four_at, two_at};
use crate::header::{Header, HEADER_LENGTH, JOB_VERSION, OPERATION_LENGTH, TURN_LENGTH};
use crate::key::{first_bits, pseudo_key};
use crate::Refusal;

/// The lowest place at which a row meets the job, if it does. No row that is tried before it meets the job.
type Row = fn(&[u8], &Header) -> Option<usize>;

/// The rows behind 1 and 2, with their numbers, in two parts: between them the pages are looked through for 12, 6 and 13 (`page`).
const BEFORE_PAGES: [(u32, Row); 3] = [(3, limit), (4, offset), (5, entry)];
const AFTER_PAGES: [(u32, Row); 4] = [(7, owner), (8, record), (9, operation), (10, turn)];

/// The refusal of a job that some row meets: the first row that does, at its lowest place.
#[cold]
#[inline(never)]
pub fn refusal(job: &[u8]) -> Refusal {
    let Some(bytes) = job.first_chunk() else {
        return (1, job.len());
    };
    if two_at(job, 0) != JOB_VERSION {
        return (2, 0);
    }
    let header = Header::read(bytes);
    let met = |(number, row): &(u32, Row)| row(job, &header).map(|place| (*number, place));
    let before = BEFORE_PAGES.iter().find_map(met);
    let here = || page(job, &header);
    let after = || AFTER_PAGES.iter().find_map(met);
    let first = before.or_else(here).or_else(after);
    first.expect("a row meets the job")
}

fn limit(_: &[u8], header: &Header) -> Option<usize> {
    let fields = [
        (2, header.depth <= 8),
        (3, (1..=8).contains(&header.capacity)),
        (4, (1..=256).contains(&header.pages)),
        (6, (1..=header.pages).contains(&header.in_use)),
        (8, header.operations <= 256),
        (10, header.turns <= 16_384),
    ];
    let outside = fields.iter().find(|(_, within)| !within);
    outside.map(|(place, _)| *place)
}

fn offset(job: &[u8], header: &Header) -> Option<usize> {
    let fields = [
        (12, HEADER_LENGTH),
        (16, header.table_at()),
        (20, header.operations_at()),
        (24, header.turns_at()),
        (28, header.total()),
    ];
    let wrong = fields
        .iter()
        .find(|(place, value)| four_at(job, *place) as usize != *value);
    let length = (job.len() != header.total()).then_some(28);
    wrong.map(|(place, _)| *place).or(length)
}

fn entry_place(j: usize) -> usize {
    HEADER_LENGTH + 2 * j
}

fn entry(job: &[u8], header: &Header) -> Option<usize> {
    let mut places = (0..header.entries()).map(entry_place);
    places.find(|place| !(1..=header.in_use).contains(&(two_at(job, *place) as usize)))
}

/// Page x, from 1, as a part of the job.
fn page_bytes<'a>(job: &'a [u8], header: &Header, x: usize) -> &'a [u8] {
    &job[page_place(header, x)..][..header.page_length()]
}

fn page_place(header: &Header, x: usize) -> usize {
    header.table_at() + (x - 1) * header.page_length()
}

/// Rows 12, 6 and 13, all three on a page before the next page is looked at.
fn page(job: &[u8], header: &Header) -> Option<Refusal> {
    (1..=header.pages).find_map(|x| {
        let (number, at) = page_fault(page_bytes(job, header, x), header, x <= header.in_use)?;
        Some((number, page_place(header, x) + at))
    })
}

/// The first of them on one page, its place counted from the page's start: the field (12), the page (6) or the byte itself (13).
fn page_fault(page: &[u8], header: &Header, in_use: bool) -> Option<Refusal> {
    let (local, count) = (page[0] as u32, page[1] as usize);
    let nonzero_from = |first: usize| {
        let at = (first..page.len()).find(|at| page[*at] != 0)?;
        Some((13, at))
    };
    if !in_use {
        nonzero_from(0)
    } else if local > header.depth {
        Some((12, 0))
    } else if two_at(page, 2) >> local != 0 {
        Some((12, 2))
    } else if count > header.capacity {
        Some((6, 0))
    } else {
        nonzero_from(4 + 8 * count)
    }
}

fn owner(job: &[u8], header: &Header) -> Option<usize> {
    let begins = |x: usize, j: usize| {
        let page = page_bytes(job, header, x);
        j >> (header.depth - page[0] as u32) == two_at(page, 2) as usize
    };
    let wrong = |j: &usize| {
        let named = two_at(job, entry_place(*j)) as usize;
        (1..=header.in_use).any(|x| begins(x, *j) != (x == named))
    };
    (0..header.entries()).find(wrong).map(entry_place)
}

fn record(job: &[u8], header: &Header) -> Option<usize> {
    for x in 1..=header.in_use {
        let page = page_bytes(job, header, x);
        let call = |i: usize| four_at(page, 4 + 8 * i);
        let begins = |i: usize| {
            let first = first_bits(pseudo_key(call(i)), page[0] as u32);
            first == two_at(page, 2) as u32
        };
        let rises = |i: usize| i == 0 || call(i - 1) < call(i);
        let wrong = |i: &usize| !begins(*i) || !rises(*i);
        if let Some(i) = (0..page[1] as usize).find(wrong) {
            return Some(page_place(header, x) + 4 + 8 * i);
        }
    }
    None
}

fn operation(job: &[u8], header: &Header) -> Option<usize> {
    let mut places = (0..header.operations).map(|i| header.operations_at() + OPERATION_LENGTH * i);
    places.find(|place| {
        let (kind, spare) = (job[*place], job[place + 1]);
        !(1..=3).contains(&kind) || spare != 0 || (kind == 1 && four_at(job, place + 6) != 0)
    })
}

fn turn(job: &[u8], header: &Header) -> Option<usize> {
    let mut places = (0..header.turns).map(|t| header.turns_at() + TURN_LENGTH * t);
    places.find(|place| two_at(job, *place) as usize >= header.operations)
}
