//! Small jobs made by hand, with what their result says, read from its own bytes.

use crate::file::ChargeFile;
use crate::job::{Job, Kind, Operation};
use crate::key::index;
use crate::little_endian::{four_at, two_at};
use crate::page::{Page, Record};
use crate::run::result_bytes;

/// The codes by their numbers.
pub const NOT_YET: u8 = 0;
pub const FOUND: u8 = 1;
pub const NONE: u8 = 2;
pub const STORED: u8 = 3;
pub const ALREADY_THERE: u8 = 4;
pub const DELETED: u8 = 5;
pub const ABSENT: u8 = 6;
pub const NO_DEPTH: u8 = 7;
pub const NO_PAGE: u8 = 8;
pub const DIFFERS: u8 = 9;

/// The calls 0 to 31 by the first three bits of their pseudo key, read as a
/// number: those bits settle which page a call goes to. The scenes take their
/// calls from here, so that each goes where it is wanted and the calls of a page
/// rise as they should.
pub const CALLS_BY_FIRST_BITS: [[u32; 4]; 8] = [
    [4, 11, 20, 27],
    [13, 14, 29, 30],
    [0, 7, 16, 23],
    [9, 10, 25, 26],
    [3, 12, 19, 28],
    [5, 6, 21, 22],
    [8, 15, 24, 31],
    [1, 2, 17, 18],
];

/// The calls whose pseudo key begins with a pattern of `local` bits, from the
/// lowest on.
pub fn lowest_calls(pattern: u32, local: u32) -> impl Iterator<Item = u32> {
    (0..).filter(move |call| index(*call, local) == pattern as usize)
}

pub fn search(call: u32) -> Operation {
    let (kind, charge) = (Kind::Search, 0);
    Operation { kind, call, charge }
}

pub fn insert(call: u32, charge: u32) -> Operation {
    let kind = Kind::Insert;
    Operation { kind, call, charge }
}

/// A delete at whatever charge the call has.
pub fn delete(call: u32) -> Operation {
    delete_at(call, 0)
}

/// A delete only where the call has this charge; 0 asks for none.
pub fn delete_at(call: u32, charge: u32) -> Operation {
    let kind = Kind::Delete;
    Operation { kind, call, charge }
}

/// A page made by hand: depth, pattern, and its calls with their charges.
pub type ByHand<'a> = (u32, u32, &'a [(u32, u32)]);

/// A file of capacity 2 with these pages in use, from page 1 on.
pub fn file(depth: u32, page_count: usize, pages: &[ByHand]) -> ChargeFile {
    let mut file = ChargeFile::empty(depth, 2, page_count);
    file.in_use = pages.len();
    for (number, &(depth, pattern, records)) in (1..).zip(pages) {
        let record = |&(call, charge): &(u32, u32)| Record { call, charge };
        let page = Page {
            depth,
            pattern,
            records: records.iter().map(record).collect(),
        };
        for j in 0..file.directory.len() {
            if page.owns(j, file.depth) {
                file.directory[j] = number;
            }
        }
        *file.page_mut(number) = page;
    }
    file
}

/// One page, of two, with these records.
pub fn one_page(records: &[(u32, u32)]) -> ChargeFile {
    file(1, 2, &[(0, 0, records)])
}

/// An answer's bytes: code, page byte, turns used, charge.
pub type AnswerBytes = (u8, u8, usize, u32);

/// What a result says.
#[derive(Debug, PartialEq, Eq)]
pub struct Told {
    pub answers: Vec<AnswerBytes>,
    /// Moment and operation of each line.
    pub log: Vec<(usize, usize)>,
    pub under_way: usize,
    pub file: Option<Vec<u8>>,
}

impl Told {
    /// Code and page byte of each answer.
    pub fn codes_and_pages(&self) -> Vec<(u8, u8)> {
        let both = |answer: &AnswerBytes| (answer.0, answer.1);
        self.answers.iter().map(both).collect()
    }
}

/// A job; the turns are operations, each with how many it is dealt in a row.
pub fn job(file: &ChargeFile, operations: &[Operation], turns: &[(usize, usize)]) -> Job {
    let dealt = |&(operation, times): &(usize, usize)| vec![operation; times];
    Job {
        file: file.clone(),
        operations: operations.to_vec(),
        turns: turns.iter().flat_map(dealt).collect(),
    }
}

/// What the result of a job says.
pub fn told(file: &ChargeFile, operations: &[Operation], turns: &[(usize, usize)]) -> Told {
    let result = result_bytes(&job(file, operations, turns).to_bytes());
    let (m, lines) = (two_at(&result, 2), two_at(&result, 4));
    let (log, end) = (24 + 8 * m, 24 + 8 * m + 4 * lines);
    assert_eq!((two_at(&result, 0), m), (2, operations.len()));
    let answer = |row: &[u8]| (row[0], row[1], two_at(row, 2), four_at(row, 4));
    let line = |row: &[u8]| (two_at(row, 0), two_at(row, 2));
    Told {
        answers: result[24..log].chunks(8).map(answer).collect(),
        log: result[log..end].chunks(4).map(line).collect(),
        under_way: two_at(&result, 6),
        file: (result[16..20] != [0; 4]).then(|| result[end..].to_vec()),
    }
}

/// The same with each operation run to its end before the next, so that there is
/// a charge file.
pub fn one_by_one(file: &ChargeFile, operations: &[Operation]) -> Told {
    let turns: Vec<(usize, usize)> = (0..operations.len()).map(|i| (i, 20)).collect();
    let ended = told(file, operations, &turns);
    assert_eq!(ended.under_way, 0);
    ended
}

/// The bytes of a file as they stand in a result.
pub fn bytes(file: &ChargeFile) -> Option<Vec<u8>> {
    Some(Job::charge_file(file))
}
