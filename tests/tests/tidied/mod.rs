//! What tidying came to, over many files: tests of it are worth nothing if the random files miss the hard cases.
// each test program uses its own part of these
#![allow(dead_code)]

use chargefile_tests::file::ChargeFile;
use chargefile_tests::job::Job;
use chargefile_tests::page::Page;
use chargefile_tests::tally::{all_seen, Tally};
use chargefile_tests::Outcome;

/// The wanted depths that are asked of a file of depth g: each there is, and ones above 8. Of some of these the low bits alone are a depth that could be
/// taken.
pub fn depths(g: u32) -> Vec<u64> {
    let above = [256 + u64::from(g), 1 << 8, 1 << 32, u64::MAX];
    (0..=9).chain(above).collect()
}

/// What was met.
#[derive(Debug, Default)]
pub struct Met {
    pub refusals: Tally,
    deepened: usize,
    lowered: usize,
    lowered_below_a_page: usize,
    nothing_joined: usize,
    joined: usize,
    chains: usize,
    most_levels: u32,
    joined_to_just_c: usize,
    kept_apart_by_one: usize,
    all_to_one: usize,
    other_numbers: usize,
}

impl Met {
    /// Counts what tidying this file came to.
    pub fn add(&mut self, file: &ChargeFile, outcome: &Outcome) {
        match outcome {
            Outcome::Refused { number, .. } => self.refusals.count(*number),
            Outcome::Done { result } => {
                self.refusals.count(0);
                let left = Job::from_bytes(result).file;
                self.add_directory(file, &left);
                self.add_pages(in_use(file), in_use(&left), file.capacity);
            }
        }
    }

    fn add_directory(&mut self, file: &ChargeFile, left: &ChargeFile) {
        let deepest = in_use(file).iter().map(|page| page.depth).max();
        self.deepened += usize::from(left.depth > file.depth);
        self.lowered += usize::from(left.depth < file.depth);
        self.lowered_below_a_page += usize::from(Some(left.depth) < deepest);
    }

    fn add_pages(&mut self, before: &[Page], after: &[Page], capacity: usize) {
        let fewer = after.len() < before.len();
        self.joined += usize::from(fewer);
        self.nothing_joined += usize::from(!fewer && before.len() > 2);
        self.all_to_one += usize::from(before.len() > 4 && after.len() == 1);
        let numbers = |pages: &[Page]| pages.iter().map(Page::calls).collect::<Vec<_>>();
        self.other_numbers += usize::from(!fewer && numbers(before) != numbers(after));
        for page in after {
            let levels = levels(page, before);
            self.chains += usize::from(levels > 1);
            self.most_levels = self.most_levels.max(levels);
            let just_c = page.records.len() == capacity;
            self.joined_to_just_c += usize::from(just_c && levels > 0);
        }
        self.kept_apart_by_one += apart_by_one(after, capacity);
    }

    /// Every case there is to think of was met, at least so often.
    pub fn has_everything(&self, least: usize) {
        println!("{self:#?}");
        all_seen([
            ("deeper directories", self.deepened, least),
            ("less deep directories", self.lowered, least),
            (
                "less deep than a page was",
                self.lowered_below_a_page,
                least,
            ),
            ("no pair", self.nothing_joined, least),
            ("pages no longer in use", self.joined, least),
            ("pages that came of joined ones", self.chains, least),
            ("levels at most", self.most_levels as usize, 8),
            ("joined to just c records", self.joined_to_just_c, least),
            ("kept apart by one record", self.kept_apart_by_one, least),
            ("five pages or more to one", self.all_to_one, least),
            ("other numbers alone", self.other_numbers, least),
        ]);
        self.refusals.all_met([0, 19], least);
    }
}

fn in_use(file: &ChargeFile) -> &[Page] {
    &file.pages[..file.in_use]
}

/// How many joins one above another made this page, from the deepest page that went into it.
fn levels(page: &Page, before: &[Page]) -> u32 {
    let within = |old: &&Page| page.owns(old.pattern as usize, old.depth);
    let deepest = before.iter().filter(within).map(|old| old.depth).max();
    deepest.expect("a page comes of others") - page.depth
}

/// How many pairs have c + 1 records together; none of those left has fewer.
fn apart_by_one(pages: &[Page], capacity: usize) -> usize {
    let with_one_more = chargefile_tests::tidy::pairs(pages, capacity + 1);
    with_one_more.len()
}
