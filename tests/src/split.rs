//! Splitting a full page ("Insert into a full page").
//!
//! As in the paper, the pages are rearranged "in private work space": the
//! whole split is worked out once, on turn (d), and kept by the operation.
//! The page stays locked until the end, so nothing can make it out of date.

use crate::key;
use crate::page::{Page, Record};

/// A whole split, worked out but not yet written anywhere.
#[derive(Clone, Debug, PartialEq, Eq)]
pub struct Split {
    /// What the old page is to become.
    pub old: Page,
    /// The new pages with their numbers, "in the order of the splits".
    pub new: Vec<(usize, Page)>,
    /// The changed entries with the pages they are to name, "by rising index".
    pub changed: Vec<(usize, usize)>,
    /// The number of the page the call is in.
    pub home: usize,
}

impl Split {
    /// What the page that the call is in is to become.
    pub fn home_page(&self) -> &Page {
        let home = self.new.iter().find(|(number, _)| *number == self.home);
        home.map_or(&self.old, |(_, page)| page)
    }
}

/// What is split: page `number` of a file of global depth `global` that has
/// `in_use` pages in use.
#[derive(Clone, Copy, Debug)]
pub struct Full<'a> {
    pub number: usize,
    pub page: &'a Page,
    pub global: u32,
    pub in_use: usize,
}

/// How many new pages an insert into a full page needs, or `None` for "no
/// depth", which holds "exactly when all c records share their first g bits
/// with the call".
///
/// The record that shares the fewest bits is the first to part from the call:
/// with s bits shared they part at depth s + 1.
pub fn new_pages_needed(page: &Page, call: u32, global: u32) -> Option<usize> {
    let mine = key::pseudo_key(call);
    let shared = |r: &Record| key::shared_bits(key::pseudo_key(r.call), mine);
    let fewest = page.records.iter().map(shared).min()?;
    (fewest < global).then(|| (fewest + 1 - page.depth) as usize)
}

/// "Split the page that would take the call, depth one more ...; repeat until
/// the call's page has under c records." Done just as it is said, without the
/// count above, so that the two can be held against each other.
pub fn split(full: Full, record: Record, capacity: usize) -> Split {
    let mut pages = vec![(full.number, full.page.clone())];
    let mut home = 0;
    while pages[home].1.records.len() >= capacity {
        let position = pages[home].1.depth;
        assert!(position < full.global, "split deeper than the directory");
        let (stays, moves) = pages[home].1.halve();
        pages[home].1 = stays;
        pages.push((full.in_use + pages.len(), moves));
        if key::leading_bit(record.call, position) {
            home = pages.len() - 1;
        }
    }
    pages[home].1 = pages[home].1.add(record);
    let home = pages[home].0;
    let (_, old) = pages.remove(0);
    Split {
        old,
        changed: changed_entries(&pages, full.global),
        new: pages,
        home,
    }
}

/// Every entry that a new page's pattern begins. The old page keeps the rest,
/// so no entry is written that would keep its value.
fn changed_entries(new: &[(usize, Page)], global: u32) -> Vec<(usize, usize)> {
    let mut changed = Vec::new();
    for j in 0..1 << global {
        if let Some((number, _)) = new.iter().find(|(_, page)| page.owns(j, global)) {
            changed.push((j, *number));
        }
    }
    changed
}
