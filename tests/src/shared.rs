//! What all operations read and write: the file, the locks, and the history
//! of directory changes that the moments of found searches ask about.

use crate::file::ChargeFile;

/// The file under way. "Each turn finds directory, pages, locks, U and rows
/// as the last one left them."
#[derive(Clone, Debug)]
pub struct Shared {
    pub file: ChargeFile,
    /// For each page, the operation that holds its lock. The document only
    /// asks whether it is locked; the holder is kept to catch a wrong unlock.
    locks: Vec<Option<usize>>,
    changes: Vec<Change>,
    pub tally: Tally,
}

/// An entry changed from one page to another on a turn.
#[derive(Clone, Copy, Debug, PartialEq, Eq)]
pub struct Change {
    pub turn: usize,
    pub entry: usize,
    pub from: usize,
    pub to: usize,
}

/// What happened in a run, for the tests that ask whether the random jobs
/// reach the rare cases at all.
#[derive(Clone, Copy, Debug, Default, PartialEq, Eq)]
pub struct Tally {
    pub splits: usize,
    pub multi_page_splits: usize,
    pub largest_split: usize,
    pub stored_in_new_page: usize,
    pub retries: usize,
    pub search_retries: usize,
    pub stale_found: usize,
    /// Of these, the ones whose record the file no longer held: only they tell
    /// the turn of the change from the turn of the reading.
    pub stale_found_gone: usize,
}

impl Shared {
    /// "At the start no page is locked."
    pub fn new(file: ChargeFile) -> Shared {
        Shared {
            locks: vec![None; file.pages.len()],
            file,
            changes: Vec::new(),
            tally: Tally::default(),
        }
    }

    /// Whether a page is locked.
    pub fn locked(&self, page: usize) -> bool {
        self.locks[page - 1].is_some()
    }

    /// How many pages an operation has locked.
    pub fn locked_by(&self, holder: usize) -> usize {
        let mine = |lock: &&Option<usize>| **lock == Some(holder);
        self.locks.iter().filter(mine).count()
    }

    /// Locks a page that is free.
    pub fn lock(&mut self, page: usize, holder: usize) {
        assert!(!self.locked(page), "page {page} locked twice");
        self.locks[page - 1] = Some(holder);
    }

    /// Unlocks a page that its holder has.
    pub fn unlock(&mut self, page: usize, holder: usize) {
        let lock = &mut self.locks[page - 1];
        assert_eq!(*lock, Some(holder), "page {page} unlocked by another");
        *lock = None;
    }

    /// Takes and locks the next page: "turn (d) also takes and locks pages
    /// U+1 to U+n in the order of the splits, and from then on U is n more".
    pub fn take_page(&mut self, page: usize, holder: usize) {
        assert_eq!(page, self.file.in_use + 1, "pages are taken in order");
        self.file.in_use = page;
        self.lock(page, holder);
    }

    /// Writes one entry and remembers the change.
    pub fn write_entry(&mut self, entry: usize, to: usize, turn: usize) {
        let from = std::mem::replace(&mut self.file.directory[entry], to);
        assert_ne!(from, to, "only changed entries are written");
        self.changes.push(Change {
            turn,
            entry,
            from,
            to,
        });
    }

    /// The turn on which an entry was changed from a page. A page taken by a
    /// split is new, so an entry never comes back to a page it has left, and
    /// there is just one such turn.
    pub fn changed_from(&self, entry: usize, page: usize) -> usize {
        let left = |change: &&Change| change.entry == entry && change.from == page;
        let change = self.changes.iter().find(left);
        change.expect("the entry was changed from the page").turn
    }
}
