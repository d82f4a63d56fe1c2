//! The turns of an insert that splits its page. Each gives whether the operation is finished.

use crate::operation::{Operation, Row, UNLOCK, UNLOCK_NEW, WRITE_ENTRY, WRITE_OLD};
use crate::pieces::Splits;
use crate::result::STORED;
use crate::tables::Shared;

/// The number of new page `i` of a split, from 0.
#[inline(always)]
fn new_number(row: &Row, i: u8) -> u8 {
    row.base.wrapping_add(i)
}

impl<const N: usize> Shared<'_, '_, N> {
    /// The splits that the operation carries out. Its page has its old depth until it is written, which comes last.
    #[inline(always)]
    fn splits(&self, operation: &Operation) -> Splits {
        let from = self.file.pages[operation.row.page as usize][0] as u32;
        Splits {
            home: operation.row.home as u32,
            global: self.depth,
            from,
            end: from + operation.row.count as u32,
            along: operation.row.along,
        }
    }

    /// Writes a new page. Then come the entries that change: all that named the page but the first ones, which go on naming it, since it keeps bit 0.
    #[inline(always)]
    pub fn write_new(&mut self, operation: &mut Operation) -> bool {
        let splits = self.splits(operation);
        let old = &self.file.pages[operation.row.page as usize];
        let i = operation.row.next;
        let new = splits.new_piece(i as u32).cut(old, operation.record());
        self.file.pages[new_number(operation.row, i) as usize] = new;
        operation.row.next = i + 1;
        if operation.row.next == operation.row.count {
            operation.row.next = splits.old_piece().next_entry(self.depth) as u8;
            *operation.stage = WRITE_ENTRY;
        }
        false
    }

    /// Writes an entry. Where it is the call's own, the call is stored from now on.
    #[inline(always)]
    pub fn write_entry(&mut self, operation: &mut Operation) -> bool {
        let splits = self.splits(operation);
        let entry = operation.row.next;
        let new = splits.new_page(entry);
        let named = new_number(operation.row, new as u8);
        let change = (entry as usize) << 3 | (splits.from & 7) as usize;
        self.changes[change] = operation.now.to_le_bytes();
        self.file.directory[entry as usize] = named;
        if entry == operation.row.home {
            self.store(operation, named);
        }
        let pattern = self.file.pages[operation.row.page as usize][2] as u32;
        operation.row.next = entry.wrapping_add(1);
        if entry as u32 + 1 == (pattern + 1) << ((self.depth - splits.from) & 31) {
            *operation.stage = UNLOCK_NEW;
        }
        false
    }

    /// Unlocks all new pages.
    #[inline(always)]
    pub fn unlock_new(&mut self, operation: &mut Operation) -> bool {
        for i in 0..operation.row.count {
            self.locks[new_number(operation.row, i) as usize] = 0;
        }
        *operation.stage = WRITE_OLD;
        false
    }

    /// Writes the old page. Where no entry has stored the call yet, it is in here.
    #[inline(always)]
    pub fn write_old(&mut self, operation: &mut Operation) -> bool {
        let splits = self.splits(operation);
        let page = &mut self.file.pages[operation.row.page as usize];
        *page = splits.old_piece().cut(page, operation.record());
        if operation.row.code == 0 {
            self.store(operation, operation.row.page);
        }
        *operation.stage = UNLOCK;
        false
    }

    /// The insert's moment: this page has the call.
    #[inline(always)]
    fn store(&mut self, operation: &mut Operation, page: u8) {
        operation.row.charge = operation.charge();
        self.settle(operation, STORED, page, operation.now);
    }
}
