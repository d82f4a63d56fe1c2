//! The first turn of every operation, and the turns of a search. Each gives whether the operation is finished.

use crate::key::{first_bits, pseudo_key};
use crate::operation::{Operation, READ_PAGE, REREAD, SEARCH};
use crate::page;
use crate::result::{FOUND, NONE};
use crate::tables::Shared;

impl<const N: usize> Shared<'_, '_, N> {
    /// Reads the entry.
    #[inline(always)]
    pub fn begin(&mut self, operation: &mut Operation) -> bool {
        self.begun += 1;
        operation.row.home = first_bits(pseudo_key(operation.call()), self.depth) as u8;
        operation.row.page = self.file.directory[operation.row.home as usize];
        if operation.kind() == SEARCH {
            *operation.stage = READ_PAGE;
        } else {
            operation.wait_for_page();
        }
        false
    }

    /// Reads the page. Found, the moment is this turn, or, where the entry no longer names the page, the turn on which it was changed. The
    /// call can then be there only while the split goes on, so the page has still the depth that it was changed from.
    #[inline(always)]
    pub fn read_page(&mut self, operation: &mut Operation) -> bool {
        let (number, home) = (operation.row.page, operation.row.home as usize);
        let page = &self.file.pages[number as usize];
        let Some(at) = page::find(page, operation.call()) else {
            operation.row.moment = operation.now;
            *operation.stage = REREAD;
            return false;
        };
        operation.row.charge = page::charge_of(page::record(page, at));
        let mut moment = operation.now;
        if self.file.directory[home] != number {
            moment = u16::from_le_bytes(self.changes[home << 3 | (page[0] & 7) as usize]);
        }
        self.settle(operation, FOUND, number, moment);
        operation.shut();
        true
    }

    /// Reads the entry again. The same page: none, and the moment is the page reading.
    #[inline(always)]
    pub fn reread(&mut self, operation: &mut Operation) -> bool {
        let named = self.file.directory[operation.row.home as usize];
        if named == operation.row.page {
            self.settle(operation, NONE, named, operation.row.moment);
            operation.shut();
            return true;
        }
        operation.row.page = named;
        *operation.stage = READ_PAGE;
        false
    }
}
