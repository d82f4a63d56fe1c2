//! The turns of an insert or a delete on the page that it locks. Each gives whether the operation is finished.

use crate::key::as_first_bits;
use crate::operation::{Operation, DECIDE, DELETE, RELEASE, UNLOCK, VERIFY, WRITE_NEW, WRITE_PAGE};
use crate::page;
use crate::result::{ABSENT, ALREADY_THERE, DELETED, DIFFERS, NO_DEPTH, NO_PAGE, STORED};
use crate::tables::Shared;

impl<const N: usize> Shared<'_, '_, N> {
    /// Locks the page: its gate was open.
    #[inline(always)]
    pub fn lock(&mut self, operation: &mut Operation) -> bool {
        self.locks[operation.row.page as usize] = 1;
        *operation.stage = VERIFY;
        operation.free();
        false
    }

    /// Reads the entry again.
    #[inline(always)]
    pub fn verify(&mut self, operation: &mut Operation) -> bool {
        let row = &mut operation.row;
        row.base = self.file.directory[row.home as usize];
        *operation.stage = if row.base == row.page {
            DECIDE
        } else {
            RELEASE
        };
        false
    }

    /// Unlocks the page held; the page just read is locked next.
    #[inline(always)]
    pub fn release(&mut self, operation: &mut Operation) -> bool {
        self.locks[operation.row.page as usize] = 0;
        operation.row.page = operation.row.base;
        operation.wait_for_page();
        false
    }

    /// Reads the page and decides.
    #[inline(always)]
    pub fn decide(&mut self, operation: &mut Operation) -> bool {
        let page = &self.file.pages[operation.row.page as usize];
        let found = page::find(page, operation.call());
        match (operation.kind(), found) {
            (DELETE, Some(at)) => {
                let charge = page::charge_of(page::record(page, at));
                if operation.strikes_out(charge) {
                    operation.row.next = at as u8;
                    *operation.stage = WRITE_PAGE;
                } else {
                    operation.row.charge = charge;
                    self.give_up(operation, DIFFERS);
                }
            }
            (DELETE, None) => self.give_up(operation, ABSENT),
            (_, Some(at)) => {
                operation.row.charge = page::charge_of(page::record(page, at));
                self.give_up(operation, ALREADY_THERE);
            }
            (_, None) if (page[1] as usize) < page::room::<N>() => *operation.stage = WRITE_PAGE,
            (_, None) => self.decide_split(operation),
        }
        false
    }

    /// The page is full: how many leading bits all its records share with the call settles how many new pages there are. Of the call's pseudo key the
    /// first g bits are known; what its differences from the records have behind them does not count.
    #[inline(always)]
    fn decide_split(&mut self, operation: &mut Operation) {
        let page = &self.file.pages[operation.row.page as usize];
        let key = as_first_bits(operation.row.home as u32, self.depth);
        let differences = page::differences(page, key);
        let behind = 1 << (31 - self.depth);
        let shared = differences
            .iter()
            .fold(behind, |all, one| all | one)
            .leading_zeros();
        let count = shared + 1 - page[0] as u32;
        if shared >= self.depth {
            return self.give_up(operation, NO_DEPTH);
        }
        if self.file.in_use + count > self.page_count {
            return self.give_up(operation, NO_PAGE);
        }
        for new in self.file.in_use..self.file.in_use + count {
            self.locks[(new & 255) as usize] = 1;
        }
        operation.row.base = self.file.in_use as u8;
        operation.row.count = count as u8;
        operation.row.along = page::along(&differences, shared);
        operation.row.next = 0;
        self.file.in_use += count;
        *operation.stage = WRITE_NEW;
    }

    /// Nothing is to be written, and the moment is this turn: the next unlocks.
    #[inline(always)]
    fn give_up(&mut self, operation: &mut Operation, code: u8) {
        self.settle(operation, code, operation.row.page, operation.now);
        *operation.stage = UNLOCK;
    }

    /// Writes the page: a delete's record is still where it was found, for the page is locked.
    #[inline(always)]
    pub fn write_page(&mut self, operation: &mut Operation) -> bool {
        let page = &mut self.file.pages[operation.row.page as usize];
        let code = if operation.kind() == DELETE {
            let at = operation.row.next as usize;
            operation.row.charge = page::charge_of(page::record(page, at));
            page::remove(page, at);
            DELETED
        } else {
            operation.row.charge = operation.charge();
            page::insert(page, operation.record());
            STORED
        };
        self.settle(operation, code, operation.row.page, operation.now);
        *operation.stage = UNLOCK;
        false
    }

    /// Unlocks the page: finished.
    #[inline(always)]
    pub fn unlock(&mut self, operation: &mut Operation) -> bool {
        self.locks[operation.row.page as usize] = 0;
        operation.shut();
        true
    }
}
