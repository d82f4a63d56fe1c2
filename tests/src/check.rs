//! The refusal table ("Refused jobs"), one function for each row, and two for
//! 13: a page in use, and one that is not.
//!
//! A row's function gives the lowest place at which its row is met; that of a
//! row of pages counts it from the page's first byte. It may take for granted
//! that no row is met that is checked before it.

use crate::job::{
    Counts, Kind, ENTRY_LENGTH, HEADER_LENGTH, JOB_VERSION, MAX_CAPACITY, MAX_DEPTH,
    MAX_OPERATIONS, MAX_PAGES, MAX_TURNS, OPERATION_LENGTH, TURN_LENGTH,
};
use crate::key;
use crate::little_endian::{four_at, two_at};
use crate::page::{page_length, Page};
use crate::result::{ANSWER_LENGTH, LINE_LENGTH, RESULT_HEADER_LENGTH};

/// "Other lent working memory under 24,576 bytes".
pub const WORKING_MEMORY: usize = 24_576;

/// A row that is looked for in the whole job: the place where it is met.
type Row = fn(&[u8]) -> Option<usize>;

/// A row that is looked for in one page, given the page's bytes: the place,
/// counted from the page's first byte.
type PageRow = fn(&Counts, &[u8]) -> Option<usize>;

/// One step of the check.
enum Step {
    Job(u32, Row),
    /// All these rows are looked for in a page "before the next page is looked
    /// at".
    EachPage {
        in_use: &'static [(u32, PageRow)],
        unused: &'static [(u32, PageRow)],
    },
}

/// The rows about the job's bytes, in the order in which they are checked: "by
/// rising number", with the rows of a page in the place of 6: "12 (depth or
/// pattern, at that field), then 6, then 13 (at the first byte that should be
/// zero and is not)", and "on an unused page 13 alone".
const ORDER: [Step; 10] = [
    Step::Job(1, short),
    Step::Job(2, version),
    Step::Job(3, limit),
    Step::Job(4, offset),
    Step::Job(5, entry),
    Step::EachPage {
        in_use: &[(12, depth_or_pattern), (6, count), (13, unused_record)],
        unused: &[(13, unused_page)],
    },
    Step::Job(7, owner),
    Step::Job(8, record),
    Step::Job(9, operation),
    Step::Job(10, turn),
];

impl Step {
    /// The number and place of the row that is met, if one is.
    fn met(&self, job: &[u8]) -> Option<(u32, usize)> {
        match self {
            Step::Job(number, row) => row(job).map(|place| (*number, place)),
            Step::EachPage { in_use, unused } => {
                let counts = Counts::read(job);
                (1..=counts.pages).find_map(|page| {
                    let rows = if page <= counts.in_use {
                        in_use
                    } else {
                        unused
                    };
                    met_in_page(job, &counts, page, rows)
                })
            }
        }
    }
}

/// The first of these rows that a page meets, by its number from 1.
fn met_in_page(
    job: &[u8],
    counts: &Counts,
    page: usize,
    rows: &[(u32, PageRow)],
) -> Option<(u32, usize)> {
    let first = page_place(counts, page);
    let bytes = &job[first..][..page_length(counts.capacity)];
    let met = |(number, row): &(u32, PageRow)| row(counts, bytes).map(|at| (*number, first + at));
    rows.iter().find_map(met)
}

/// The refusal of a job by its bytes, that is by every row about them alone: its number
/// and place.
pub fn check(job: &[u8]) -> Option<(u32, u32)> {
    let met = ORDER.iter().find_map(|step| step.met(job));
    met.map(|(number, place)| (number, place as u32))
}

/// The refusal by all rows; "11 comes last", after the job itself.
pub fn check_all(
    job: &[u8],
    result_len: usize,
    rows_len: usize,
    memory_len: usize,
) -> Option<(u32, u32)> {
    check(job).or_else(|| output(job, result_len, rows_len, memory_len).map(|place| (11, place)))
}

/// How long a result buffer must be: "24 + 12m + the charge file's length".
/// 12m is an answer and a log line for every operation.
pub fn result_room(counts: &Counts) -> usize {
    RESULT_HEADER_LENGTH
        + (ANSWER_LENGTH + LINE_LENGTH) * counts.operations
        + counts.charge_file_length()
}

/// The least that a run of this job may be lent: bytes of the result buffer,
/// rows, and bytes of other working memory.
pub fn least_lent(job: &[u8]) -> (usize, usize, usize) {
    let counts = Counts::read(job);
    (result_room(&counts), counts.operations, WORKING_MEMORY)
}

/// Row 1: "under 32 bytes; place is the length".
fn short(job: &[u8]) -> Option<usize> {
    (job.len() < HEADER_LENGTH).then_some(job.len())
}

/// Row 2: a version other than 2: "version 1 gives refusal 2"; the place is "0
/// for 2".
fn version(job: &[u8]) -> Option<usize> {
    (two_at(job, 0) != JOB_VERSION).then_some(0)
}

/// Row 3: "a count outside its limits, or U is 0 or above P". The fields are
/// tried in the order of their places, so the first met is the lowest.
fn limit(job: &[u8]) -> Option<usize> {
    let counts = Counts::read(job);
    let fields = [
        (2, counts.depth <= MAX_DEPTH),
        (3, (1..=MAX_CAPACITY).contains(&counts.capacity)),
        (4, (1..=MAX_PAGES).contains(&counts.pages)),
        (6, (1..=counts.pages).contains(&counts.in_use)),
        (8, counts.operations <= MAX_OPERATIONS),
        (10, counts.turns <= MAX_TURNS),
    ];
    fields
        .iter()
        .find(|(_, within)| !within)
        .map(|(place, _)| *place)
}

/// Row 4: "an offset or total not as computed; length not the total (place
/// 28)". Place 28 is the total's own field, so it is the last either way.
fn offset(job: &[u8]) -> Option<usize> {
    let layout = Counts::read(job).layout();
    let fields = [
        (12, layout.directory),
        (16, layout.pages),
        (20, layout.operations),
        (24, layout.turns),
        (28, layout.total),
    ];
    let wrong = |(place, value): &&(usize, usize)| four_at(job, *place) as usize != *value;
    let field = fields.iter().find(wrong).map(|(place, _)| *place);
    field.or((job.len() != layout.total).then_some(28))
}

/// Row 5: an entry "0 or above U".
fn entry(job: &[u8]) -> Option<usize> {
    let counts = Counts::read(job);
    let places = (0..1 << counts.depth).map(|j| entry_place(&counts, j));
    places
        .into_iter()
        .find(|place| !(1..=counts.in_use).contains(&two_at(job, *place)))
}

/// Row 12: "a depth above g or a pattern too large", "at that field". A pattern
/// is too large if it is "2^l or more".
fn depth_or_pattern(counts: &Counts, page: &[u8]) -> Option<usize> {
    let depth = usize::from(page[0]);
    if depth > counts.depth {
        Some(0)
    } else if two_at(page, 2) >= 1 << depth {
        Some(2)
    } else {
        None
    }
}

/// Row 6: "count above c"; the place is the first byte of the page.
fn count(counts: &Counts, page: &[u8]) -> Option<usize> {
    (usize::from(page[1]) > counts.capacity).then_some(0)
}

/// Row 13 in a page in use: the first byte "that should be zero and is not".
/// The records not used are those behind its last one.
fn unused_record(_: &Counts, page: &[u8]) -> Option<usize> {
    let end = 4 + 8 * usize::from(page[1]);
    (end..page.len()).find(|at| page[*at] != 0)
}

/// Row 13 on an unused page: every byte of it should be zero.
fn unused_page(_: &Counts, page: &[u8]) -> Option<usize> {
    page.iter().position(|byte| *byte != 0)
}

/// Row 7: "for entry j, its page's pattern does not begin j, or another
/// page's in use does".
fn owner(job: &[u8]) -> Option<usize> {
    let counts = Counts::read(job);
    let pages = pages_in_use(job, &counts);
    let wrong = |j: &usize| {
        let named = two_at(job, entry_place(&counts, *j));
        pages.iter().enumerate().any(|(p, page)| {
            let owns = page.owns(*j, counts.depth as u32);
            owns != (p + 1 == named)
        })
    };
    let j = (0..1 << counts.depth).find(wrong)?;
    Some(entry_place(&counts, j))
}

/// Row 8: "pseudo key does not begin with the pattern", or the record "is not
/// above the one before it". That "the call is earlier in the page" needs no
/// look of its own: from there on the calls cannot all have risen.
fn record(job: &[u8]) -> Option<usize> {
    let counts = Counts::read(job);
    for (p, page) in pages_in_use(job, &counts).iter().enumerate() {
        let mut before = None;
        for (k, record) in page.records.iter().enumerate() {
            let begins = key::index(record.call, page.depth) == page.pattern as usize;
            // The first record has none before it, and `None` is below all.
            let rises = before < Some(record.call);
            if !begins || !rises {
                return Some(page_place(&counts, p + 1) + 4 + 8 * k);
            }
            before = Some(record.call);
        }
    }
    None
}

/// Row 9: "kind not 1 to 3, spare byte or charge not zero where it must be".
/// The charge must be zero in a search: an insert stores its own, and a delete
/// can have one, since it "deletes only where the file's charge is equal".
fn operation(job: &[u8]) -> Option<usize> {
    let counts = Counts::read(job);
    let first = counts.layout().operations;
    let places = (0..counts.operations).map(|i| first + OPERATION_LENGTH * i);
    places.into_iter().find(|place| {
        let row = &job[*place..][..OPERATION_LENGTH];
        let charge = four_at(row, 6);
        match Kind::from_number(row[0]) {
            None => true,
            Some(kind) => row[1] != 0 || (kind == Kind::Search && charge != 0),
        }
    })
}

/// Row 10: a turn "m or above".
fn turn(job: &[u8]) -> Option<usize> {
    let counts = Counts::read(job);
    let first = counts.layout().turns;
    let places = (0..counts.turns).map(|t| first + TURN_LENGTH * t);
    places
        .into_iter()
        .find(|place| two_at(job, *place) >= counts.operations)
}

/// Row 11, which "comes last": result buffer (place 0), lent table (1), other lent memory (2).
fn output(job: &[u8], result_len: usize, rows_len: usize, memory_len: usize) -> Option<u32> {
    let counts = Counts::read(job);
    if result_len < result_room(&counts) {
        Some(0)
    } else if rows_len < counts.operations {
        Some(1)
    } else if memory_len < WORKING_MEMORY {
        Some(2)
    } else {
        None
    }
}

/// The first byte of entry `j`.
pub fn entry_place(counts: &Counts, j: usize) -> usize {
    counts.layout().directory + ENTRY_LENGTH * j
}

/// The first byte of a page, by its number from 1.
pub fn page_place(counts: &Counts, number: usize) -> usize {
    counts.layout().pages + page_length(counts.capacity) * (number - 1)
}

fn pages_in_use(job: &[u8], counts: &Counts) -> Vec<Page> {
    let read = |number| Page::from_bytes(&job[page_place(counts, number)..]);
    (1..=counts.in_use).map(read).collect()
}
