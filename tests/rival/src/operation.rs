//! An operation under way.

use crate::bytes::four_at;
use crate::tables::{FREE, SHUT};

/// What its next turns need. All zero: not begun. Pages count from 0 here, so that every number but the first three fits in a byte.
#[derive(Clone, Copy, Default, PartialEq, Eq, Debug)]
pub struct Row {
    pub charge: u32,
    pub moment: u16,
    pub used: u16,
    pub code: u8,
    /// The page told with the code; 0 before.
    pub told: u8,
    /// The page it reads, waits for or holds.
    pub page: u8,
    /// The call's own entry: the first bits of its pseudo key, and all of them that later turns need.
    pub home: u8,
    /// The page just read in its entry; in a split, the first new page.
    pub base: u8,
    /// How many new pages.
    pub count: u8,
    /// The record to delete; in a split, the new page or the entry to write.
    pub next: u8,
    /// In a split, which records of the old page go along with the call to the end, a bit for each.
    pub along: u8,
}

/// What an operation does on its next turn, as the definitions name it.
pub type Stage = u8;
pub const NOT_BEGUN: Stage = 0;
pub const READ_PAGE: Stage = 1;
pub const REREAD: Stage = 2;
pub const LOCK: Stage = 3;
pub const VERIFY: Stage = 4;
pub const RELEASE: Stage = 5;
pub const DECIDE: Stage = 6;
pub const WRITE_PAGE: Stage = 7;
pub const WRITE_NEW: Stage = 8;
pub const WRITE_ENTRY: Stage = 9;
pub const UNLOCK_NEW: Stage = 10;
pub const WRITE_OLD: Stage = 11;
pub const UNLOCK: Stage = 12;

pub const SEARCH: u8 = 1;
pub const DELETE: u8 = 3;

/// An operation that takes its turn.
pub struct Operation<'a> {
    pub number: usize,
    /// The number of this turn.
    pub now: u16,
    pub bytes: &'a [u8; 10],
    pub row: &'a mut Row,
    pub gate: &'a mut [u8; 2],
    pub stage: &'a mut Stage,
}

impl Operation<'_> {
    #[inline(always)]
    pub fn kind(&self) -> u8 {
        self.bytes[0]
    }

    #[inline(always)]
    pub fn call(&self) -> u32 {
        four_at(self.bytes, 2)
    }

    #[inline(always)]
    pub fn charge(&self) -> u32 {
        four_at(self.bytes, 6)
    }

    /// The record that an insert stores.
    #[inline(always)]
    pub fn record(&self) -> u64 {
        self.call() as u64 | (self.charge() as u64) << 32
    }

    /// Whether a delete strikes out a call that has this charge. Zero asks for any.
    #[inline(always)]
    pub fn strikes_out(&self, charge: u32) -> bool {
        let asked = self.charge();
        asked == 0 || asked == charge
    }

    /// The next turns wait for no lock.
    #[inline(always)]
    pub fn free(&mut self) {
        *self.gate = FREE.to_le_bytes();
    }

    /// The next turn locks the page in the row, and waits where it is locked.
    #[inline(always)]
    pub fn wait_for_page(&mut self) {
        *self.gate = (self.row.page as u16).to_le_bytes();
        *self.stage = LOCK;
    }

    /// Its later turns do nothing.
    #[inline(always)]
    pub fn shut(&mut self) {
        *self.gate = SHUT.to_le_bytes();
    }
}
