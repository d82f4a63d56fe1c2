//! The tables of a run: views of the lent memory, each with a fixed size.

use crate::header::Header;
use crate::log::Log;
use crate::operation::{Operation, Stage, NOT_BEGUN};

/// How much working memory a run must be lent.
pub const MEMORY_LENGTH: usize = 24_576;

/// An operation's gate is the lock that its next turn waits for. These two are no page's: one is never locked, for a turn that waits for
/// nothing, and one always, for an operation that is finished. So all turns that do nothing are found by one test.
pub const FREE: u16 = 256;
pub const SHUT: u16 = 257;

/// The file as it stands. Pages count from 0 here.
pub struct File<'a, const N: usize> {
    pub pages: &'a mut [[u8; N]; 256],
    pub directory: &'a mut [u8; 256],
    pub in_use: u32,
}

/// What all operations read and write.
pub struct Shared<'a, 'l, const N: usize> {
    pub file: File<'a, N>,
    pub depth: u32,
    pub page_count: u32,
    pub locks: &'a mut [u8; 512],
    /// On which turn an entry was changed from a page, by the entry and by the page's depth: an entry leaves a page of each depth once.
    pub changes: &'a mut [[u8; 2]; 2048],
    pub begun: usize,
    pub log: Log<'l>,
}

/// What a turn looks at first, for each operation: the gate it may wait for, and the step it comes to.
pub struct Next<'a> {
    pub gates: &'a mut [[u8; 2]; 256],
    pub stages: &'a mut [Stage; 256],
}

/// The tables before the first turn: the file as it came in, no page locked, no operation begun. What `changes` holds does not matter:
/// an entry's change is written before it is read.
#[inline(always)]
pub fn at_start<'a, 'l, const N: usize>(
    job: &[u8],
    header: &Header,
    memory: &'a mut [u8],
    log: Log<'l>,
) -> (Shared<'a, 'l, N>, Next<'a>) {
    let (part, rest) = memory.split_at_mut(256 * N);
    let pages = fixed(part.as_chunks_mut().0);
    let (directory, rest) = rest.split_first_chunk_mut().unwrap();
    let (locks, rest) = rest.split_first_chunk_mut().unwrap();
    let (part, rest) = rest.split_at_mut(2 * 256);
    let gates = fixed(part.as_chunks_mut().0);
    let (stages, rest) = rest.split_first_chunk_mut().unwrap();
    let changes = fixed(rest[..2 * 2048].as_chunks_mut().0);
    let mut shared = Shared {
        file: File {
            pages,
            directory,
            in_use: header.in_use as u32,
        },
        depth: header.depth,
        page_count: header.pages as u32,
        locks,
        changes,
        begun: 0,
        log,
    };
    shared.file.load(job, header);
    shared.locks.fill(0);
    shared.locks[SHUT as usize] = 1;
    let next = Next { gates, stages };
    next.gates.fill(FREE.to_le_bytes());
    next.stages.fill(NOT_BEGUN);
    (shared, next)
}

/// The same rows with their number known to the compiler.
#[inline(always)]
fn fixed<T, const COUNT: usize>(rows: &mut [T]) -> &mut [T; COUNT] {
    rows.try_into().expect("as many rows")
}

impl<const N: usize> File<'_, N> {
    /// The file as the job has it: its entries, and its pages in use.
    #[inline(always)]
    fn load(&mut self, job: &[u8], header: &Header) {
        let (before, table) = job.split_at(header.table_at());
        let entries = before[32..].as_chunks::<2>().0;
        for (named, entry) in self.directory.iter_mut().zip(entries) {
            // page 256 has the low byte 0
            *named = entry[0].wrapping_sub(1);
        }
        let in_use = header.in_use * N;
        self.pages.as_flattened_mut()[..in_use].copy_from_slice(&table[..in_use]);
    }
}

impl<const N: usize> Shared<'_, '_, N> {
    /// The operation's moment is known: its code is set, with the page behind it, and its line joins the log.
    #[inline(always)]
    pub fn settle(&mut self, operation: &mut Operation, code: u8, page: u8, moment: u16) {
        operation.row.code = code;
        operation.row.told = page;
        operation.row.moment = moment;
        self.log.add(moment, operation.number);
    }
}
