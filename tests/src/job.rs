//! A job and its bytes ("The job, byte by byte").

use crate::file::ChargeFile;
use crate::little_endian::{four_at, push_four, push_offset, push_two, two_at};
use crate::page::{page_length, Page};

/// "Job version is 2", of charge files too: "a charge file is a job".
pub const JOB_VERSION: usize = 2;
/// "Header, 32 bytes".
pub const HEADER_LENGTH: usize = 32;
/// "Directory: 2 bytes an entry."
pub const ENTRY_LENGTH: usize = 2;
/// "Operation, 10 bytes".
pub const OPERATION_LENGTH: usize = 10;
/// "Turn: 2 bytes".
pub const TURN_LENGTH: usize = 2;

/// "Depth 0 to 8, capacity 1 to 8, pages 1 to 256, operations 0 to 256, turns
/// 0 to 16,384."
pub const MAX_DEPTH: usize = 8;
pub const MAX_CAPACITY: usize = 8;
pub const MAX_PAGES: usize = 256;
pub const MAX_OPERATIONS: usize = 256;
pub const MAX_TURNS: usize = 16_384;

/// The counts of the header, as they stand there, checked or not.
#[derive(Clone, Copy, Debug, PartialEq, Eq)]
pub struct Counts {
    pub depth: usize,
    pub capacity: usize,
    pub pages: usize,
    pub in_use: usize,
    pub operations: usize,
    pub turns: usize,
}

/// Where each section begins, and the total: "the sections follow in that
/// order with no gap".
#[derive(Clone, Copy, Debug, PartialEq, Eq)]
pub struct Layout {
    pub directory: usize,
    pub pages: usize,
    pub operations: usize,
    pub turns: usize,
    pub total: usize,
}

impl Counts {
    /// Reads the counts of a job of at least 32 bytes.
    pub fn read(job: &[u8]) -> Counts {
        Counts {
            depth: usize::from(job[2]),
            capacity: usize::from(job[3]),
            pages: two_at(job, 4),
            in_use: two_at(job, 6),
            operations: two_at(job, 8),
            turns: two_at(job, 10),
        }
    }

    /// The layout that these counts call for; they must be within the limits.
    pub fn layout(&self) -> Layout {
        let directory = HEADER_LENGTH;
        let pages = directory + (ENTRY_LENGTH << self.depth);
        let operations = pages + self.pages * page_length(self.capacity);
        let turns = operations + self.operations * OPERATION_LENGTH;
        let total = turns + self.turns * TURN_LENGTH;
        Layout {
            directory,
            pages,
            operations,
            turns,
            total,
        }
    }

    /// "A charge file is a job with no operations and no turns", so it ends
    /// where the operations would begin.
    pub fn charge_file_length(&self) -> usize {
        self.layout().operations
    }
}

/// "Kind (1 search, 2 insert, 3 delete)".
#[derive(Clone, Copy, Debug, PartialEq, Eq)]
pub enum Kind {
    Search,
    Insert,
    Delete,
}

impl Kind {
    /// The kind with a number, if there is one.
    pub fn from_number(number: u8) -> Option<Kind> {
        match number {
            1 => Some(Kind::Search),
            2 => Some(Kind::Insert),
            3 => Some(Kind::Delete),
            _ => None,
        }
    }

    /// The number in the operation's first byte.
    pub fn number(self) -> u8 {
        match self {
            Kind::Search => 1,
            Kind::Insert => 2,
            Kind::Delete => 3,
        }
    }

    /// The kind in words, as an `op` line prints it.
    pub fn word(self) -> &'static str {
        match self {
            Kind::Search => "search",
            Kind::Insert => "insert",
            Kind::Delete => "delete",
        }
    }
}

/// An operation of the job. The charge is the one that an insert stores, or the
/// one that a delete asks of the file, zero if it takes any; a search has zero.
#[derive(Clone, Copy, Debug, PartialEq, Eq)]
pub struct Operation {
    pub kind: Kind,
    pub call: u32,
    pub charge: u32,
}

/// A job taken apart.
#[derive(Clone, Debug, PartialEq, Eq)]
pub struct Job {
    pub file: ChargeFile,
    pub operations: Vec<Operation>,
    pub turns: Vec<usize>,
}

impl Job {
    /// The same file and operations with another list of turns.
    pub fn with_list(&self, turns: &[usize]) -> Job {
        Job {
            turns: turns.to_vec(),
            ..self.clone()
        }
    }

    /// The counts its header has.
    pub fn counts(&self) -> Counts {
        Counts {
            depth: self.file.depth as usize,
            capacity: self.file.capacity,
            pages: self.file.pages.len(),
            in_use: self.file.in_use,
            operations: self.operations.len(),
            turns: self.turns.len(),
        }
    }

    /// The job's bytes.
    pub fn to_bytes(&self) -> Vec<u8> {
        let mut bytes = self.header_bytes();
        for &entry in &self.file.directory {
            push_two(&mut bytes, entry);
        }
        for page in &self.file.pages {
            bytes.extend(page.to_bytes(self.file.capacity));
        }
        for operation in &self.operations {
            bytes.extend([operation.kind.number(), 0]);
            push_four(&mut bytes, operation.call);
            push_four(&mut bytes, operation.charge);
        }
        for &turn in &self.turns {
            push_two(&mut bytes, turn);
        }
        bytes
    }

    fn header_bytes(&self) -> Vec<u8> {
        let (counts, mut bytes) = (self.counts(), Vec::new());
        push_two(&mut bytes, JOB_VERSION);
        bytes.extend([counts.depth as u8, counts.capacity as u8]);
        push_two(&mut bytes, counts.pages);
        push_two(&mut bytes, counts.in_use);
        push_two(&mut bytes, counts.operations);
        push_two(&mut bytes, counts.turns);
        let layout = counts.layout();
        push_offset(&mut bytes, layout.directory);
        push_offset(&mut bytes, layout.pages);
        push_offset(&mut bytes, layout.operations);
        push_offset(&mut bytes, layout.turns);
        push_offset(&mut bytes, layout.total);
        bytes
    }

    /// Takes apart a job that no row of the refusal table meets.
    pub fn from_bytes(job: &[u8]) -> Job {
        let counts = Counts::read(job);
        let layout = counts.layout();
        let entry = |j: usize| two_at(job, layout.directory + ENTRY_LENGTH * j);
        let length = page_length(counts.capacity);
        let page = |p: usize| Page::from_bytes(&job[layout.pages + length * p..][..length]);
        let turn = |t: usize| two_at(job, layout.turns + TURN_LENGTH * t);
        let operation = |i: usize| {
            let row = &job[layout.operations + OPERATION_LENGTH * i..];
            Operation {
                kind: Kind::from_number(row[0]).expect("kind 1 to 3"),
                call: four_at(row, 2),
                charge: four_at(row, 6),
            }
        };
        Job {
            file: ChargeFile {
                depth: counts.depth as u32,
                capacity: counts.capacity,
                in_use: counts.in_use,
                directory: (0..1 << counts.depth).map(entry).collect(),
                pages: (0..counts.pages).map(page).collect(),
            },
            operations: (0..counts.operations).map(operation).collect(),
            turns: (0..counts.turns).map(turn).collect(),
        }
    }

    /// The charge file of this job's file as it stands.
    pub fn charge_file(file: &ChargeFile) -> Vec<u8> {
        let alone = Job {
            file: file.clone(),
            operations: Vec::new(),
            turns: Vec::new(),
        };
        alone.to_bytes()
    }
}
