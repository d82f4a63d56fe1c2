//! A page and its records ("The file"; "The job, byte by byte").

use crate::key;
use crate::little_endian::{four_at, push_four, push_two, two_at};

/// A call with its charge in cents; "every value of both is allowed".
#[derive(Clone, Copy, Debug, PartialEq, Eq, PartialOrd, Ord)]
pub struct Record {
    pub call: u32,
    pub charge: u32,
}

/// A page: local depth, pattern of that many bits, and its records, which
/// "stand by rising call number". A page not in use is the page of depth 0 with
/// no records, whose bytes are all zero.
#[derive(Clone, Debug, Default, PartialEq, Eq)]
pub struct Page {
    pub depth: u32,
    pub pattern: u32,
    pub records: Vec<Record>,
}

/// "Page, 4 + 8c bytes".
pub fn page_length(capacity: usize) -> usize {
    4 + 8 * capacity
}

impl Page {
    /// Its calls, in its order.
    pub fn calls(&self) -> Vec<u32> {
        self.records.iter().map(|record| record.call).collect()
    }

    /// The record of a call, if the page has one. The calls rise, so looking
    /// for it "may then stop at the first higher number".
    pub fn find(&self, call: u32) -> Option<Record> {
        let up_to_it = self.records.iter().take_while(|r| r.call <= call);
        up_to_it.copied().find(|r| r.call == call)
    }

    /// "Records in every page stand by rising call number", and insert keeps
    /// this: the record of a call that is missing goes behind all lower ones.
    pub fn add(&self, record: Record) -> Page {
        let lower = self.records.iter().filter(|r| r.call < record.call);
        let mut page = self.clone();
        page.records.insert(lower.count(), record);
        page
    }

    /// "Delete closes the gap", and the calls still rise.
    pub fn remove(&self, call: u32) -> Page {
        let mut page = self.clone();
        page.records.retain(|r| r.call != call);
        page
    }

    /// One split: "the split page keeps bit 0, a new page gets bit 1, both
    /// keep their order", so that both rise. Both are one bit deeper.
    pub fn halve(&self) -> (Page, Page) {
        let goes_over = |r: &&Record| key::leading_bit(r.call, self.depth);
        let half = |bit: u32, records: Vec<Record>| Page {
            depth: self.depth + 1,
            pattern: 2 * self.pattern + bit,
            records,
        };
        let stays = self.records.iter().filter(|r| !goes_over(r));
        let moves = self.records.iter().filter(goes_over);
        (
            half(0, stays.copied().collect()),
            half(1, moves.copied().collect()),
        )
    }

    /// Whether the page's pattern begins entry `j`.
    pub fn owns(&self, j: usize, global: u32) -> bool {
        key::begins(self.pattern, self.depth, j, global)
    }

    /// "l (1), record count (1), pattern (2), then records of call number and
    /// charge". "A record no longer used ... is zero", so the rest is zeros.
    pub fn to_bytes(&self, capacity: usize) -> Vec<u8> {
        assert!(self.records.len() <= capacity, "page over its capacity");
        let mut bytes = vec![self.depth as u8, self.records.len() as u8];
        push_two(&mut bytes, self.pattern as usize);
        for record in &self.records {
            push_four(&mut bytes, record.call);
            push_four(&mut bytes, record.charge);
        }
        bytes.resize(page_length(capacity), 0);
        bytes
    }

    /// Reads a page whose count is within its capacity.
    pub fn from_bytes(bytes: &[u8]) -> Page {
        let record = |k: usize| Record {
            call: four_at(bytes, 4 + 8 * k),
            charge: four_at(bytes, 8 + 8 * k),
        };
        Page {
            depth: u32::from(bytes[0]),
            pattern: two_at(bytes, 2) as u32,
            records: (0..usize::from(bytes[1])).map(record).collect(),
        }
    }
}
