//! The result's bytes.

use crate::header::Header;
use crate::operation::Row;
use crate::tables::File;

pub const RESULT_VERSION: usize = 2;
pub const RESULT_HEADER_LENGTH: usize = 24;
pub const ANSWER_LENGTH: usize = 8;
pub const LINE_LENGTH: usize = 4;

// The codes of answers; 0 while the moment is not known.
pub const FOUND: u8 = 1;
pub const NONE: u8 = 2;
pub const STORED: u8 = 3;
pub const ALREADY_THERE: u8 = 4;
pub const DELETED: u8 = 5;
pub const ABSENT: u8 = 6;
pub const NO_DEPTH: u8 = 7;
pub const NO_PAGE: u8 = 8;
pub const DIFFERS: u8 = 9;

/// How long a lent result buffer must be.
#[inline(always)]
pub fn room(header: &Header) -> usize {
    let each = ANSWER_LENGTH + LINE_LENGTH;
    RESULT_HEADER_LENGTH + each * header.operations + header.operations_at()
}

/// An answer tells its page less one, and that is the page's number here.
#[inline(always)]
pub fn write_answers(answers: &mut [u8], rows: &[Row]) {
    for (answer, row) in answers.as_chunks_mut().0.iter_mut().zip(rows) {
        let (code, told) = (row.code as u64, row.told as u64);
        let number = code | told << 8 | (row.used as u64) << 16 | (row.charge as u64) << 32;
        *answer = number.to_le_bytes();
    }
}

/// The file after the last turn: in `out`, which is as long as it.
#[inline(always)]
pub fn write_file<const N: usize>(out: &mut [u8], job: &[u8], header: &Header, file: &File<N>) {
    let (head, rest) = out.split_at_mut(32);
    head.copy_from_slice(&job[..32]);
    head[6..8].copy_from_slice(&(file.in_use as u16).to_le_bytes());
    // no operations and no turns, so both begin where the file ends
    head[8..12].fill(0);
    for at in [20, 24, 28] {
        head[at..at + 4].copy_from_slice(&(header.operations_at() as u32).to_le_bytes());
    }
    let (entries, table) = rest.split_at_mut(header.table_at() - 32);
    let entries = entries.as_chunks_mut().0;
    for (entry, named) in entries.iter_mut().zip(file.directory.iter()) {
        *entry = (*named as u16 + 1).to_le_bytes();
    }
    let pages = &file.pages.as_flattened()[..file.in_use as usize * N];
    let (used, unused) = table.split_at_mut(pages.len());
    used.copy_from_slice(pages);
    unused.fill(0);
}

/// What the header tells. `file`: where the charge file begins, 0 where there is none.
pub struct Contents {
    pub operations: usize,
    pub lines: usize,
    pub under_way: usize,
    pub file: usize,
    pub total: usize,
}

impl Contents {
    /// Where the result's parts are. There is no charge file while an operation is under way.
    #[inline(always)]
    pub fn new(header: &Header, lines: usize, under_way: usize) -> Contents {
        let operations = header.operations;
        let end = log_at(operations) + LINE_LENGTH * lines;
        let (file, total) = if under_way == 0 {
            (end, end + header.operations_at())
        } else {
            (0, end)
        };
        Contents {
            operations,
            lines,
            under_way,
            file,
            total,
        }
    }

    #[inline(always)]
    pub fn write_header(&self, result: &mut [u8]) {
        let head: &mut [u8; RESULT_HEADER_LENGTH] = result.first_chunk_mut().unwrap();
        let counts = [RESULT_VERSION, self.operations, self.lines, self.under_way];
        for (k, count) in counts.into_iter().enumerate() {
            head[2 * k..][..2].copy_from_slice(&(count as u16).to_le_bytes());
        }
        let offsets = [
            RESULT_HEADER_LENGTH,
            log_at(self.operations),
            self.file,
            self.total,
        ];
        for (k, offset) in offsets.into_iter().enumerate() {
            head[8 + 4 * k..][..4].copy_from_slice(&(offset as u32).to_le_bytes());
        }
    }
}

#[inline(always)]
fn log_at(operations: usize) -> usize {
    RESULT_HEADER_LENGTH + ANSWER_LENGTH * operations
}
