//! The charge file in memory: directory, pages, pages in use ("The file").

use crate::key;
use crate::page::{Page, Record};

/// Directory and page table with their counts. `pages` has all P pages, the
/// unused ones empty, because a job carries its unused pages too.
#[derive(Clone, Debug, PartialEq, Eq)]
pub struct ChargeFile {
    pub depth: u32,
    pub capacity: usize,
    pub in_use: usize,
    pub directory: Vec<usize>,
    pub pages: Vec<Page>,
}

/// What looking into a page for a call came to: which page it was, and the
/// call's record, if it is there.
#[derive(Clone, Copy, Debug, PartialEq, Eq)]
pub struct Looked {
    pub page: usize,
    pub record: Option<Record>,
}

impl ChargeFile {
    /// A file with one empty page of depth 0 that every entry names.
    pub fn empty(depth: u32, capacity: usize, page_count: usize) -> ChargeFile {
        ChargeFile {
            depth,
            capacity,
            in_use: 1,
            directory: vec![1; 1 << depth],
            pages: vec![Page::default(); page_count],
        }
    }

    /// "Pages count from 1, because 001 uses 0 for 'none read yet'."
    pub fn page(&self, number: usize) -> &Page {
        &self.pages[number - 1]
    }

    /// The same page, to be changed.
    pub fn page_mut(&mut self, number: usize) -> &mut Page {
        &mut self.pages[number - 1]
    }

    /// Looks into a page for a call. "Looking into a page must ... report which
    /// page it was to every caller."
    pub fn look(&self, number: usize, call: u32) -> Looked {
        Looked {
            page: number,
            record: self.page(number).find(call),
        }
    }

    /// The entry a call belongs to.
    pub fn entry_of(&self, call: u32) -> usize {
        key::index(call, self.depth)
    }

    /// The page that a call's entry names now.
    pub fn page_of(&self, call: u32) -> usize {
        self.directory[self.entry_of(call)]
    }

    /// "What the file holds, at any moment: for each j, the records with
    /// index j in the page that entry j names." During a split the old page
    /// still has records that no entry leads to; those are not held.
    pub fn holds(&self) -> Vec<Record> {
        let mut held = Vec::new();
        for (j, &number) in self.directory.iter().enumerate() {
            let records = &self.page(number).records;
            held.extend(records.iter().filter(|r| self.entry_of(r.call) == j));
        }
        held
    }
}
