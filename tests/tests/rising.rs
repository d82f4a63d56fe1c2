//! "From the next month records in every page stand by rising call number, in files read and written. Insert, split and delete all keep this. Looking for a
//! call in a page may then stop at the first higher number, and finds what it found before."

mod linked;
mod states;

use std::collections::BTreeSet;

use chargefile_tests::check::least_lent;
use chargefile_tests::job::Job;
use chargefile_tests::little_endian::{four_at, two_at};
use chargefile_tests::make;
use chargefile_tests::page::{Page, Record};
use chargefile_tests::random::Random;
use chargefile_tests::result;
use chargefile_tests::run::Run;
use chargefile_tests::seeds::{each_seed, few_seeds};
use chargefile_tests::tally::all_seen;
use chargefile_tests::{run, Outcome};
use linked::Lent;
use states::{among_all, calls_to_look_for, every_page, Seen};

const JOBS: u64 = 24_000;
/// Jobs that the library runs once for each place where their list can stop.
const STOPPED: u64 = 2_000;

/// Each call is above the one before it.
fn rise(calls: &[u32]) -> bool {
    calls.windows(2).all(|pair| pair[0] < pair[1])
}

/// What was met over all states.
#[derive(Debug, Default)]
struct Met {
    pages: usize,
    with_neighbours: usize,
    not_named_yet: usize,
    added_last: usize,
    added_before_another: usize,
    taken_from_before_another: usize,
}

impl Met {
    fn add(&mut self, seen: &Seen) {
        let page = seen.page;
        self.pages += 1;
        self.with_neighbours += usize::from(page.records.len() > 1);
        let Some(before) = &seen.before else {
            return;
        };
        self.not_named_yet += usize::from(!seen.named);
        if let Some(more) = only_in(page, before) {
            let last = page.records.last() == Some(&more);
            self.added_last += usize::from(last);
            self.added_before_another += usize::from(!last);
        } else if let Some(gone) = only_in(before, page) {
            let last = before.records.last() == Some(&gone);
            self.taken_from_before_another += usize::from(!last);
        }
    }

    fn has_everything(&self) {
        println!("{self:#?}");
        all_seen([
            ("pages with neighbours", self.with_neighbours, 50_000),
            ("written, but not yet named", self.not_named_yet, 4_000),
            ("added behind all", self.added_last, 4_000),
            ("added before another", self.added_before_another, 1_500),
            (
                "taken from before another",
                self.taken_from_before_another,
                1_000,
            ),
        ]);
    }
}

/// The one record that a page of the same depth has more, if it is just one.
fn only_in(more: &Page, fewer: &Page) -> Option<Record> {
    let mut others = more.records.iter().filter(|r| !fewer.records.contains(r));
    let one = others.next().copied();
    let just_one = more.depth == fewer.depth && more.records.len() == fewer.records.len() + 1;
    one.filter(|_| just_one && others.next().is_none())
}

/// Every page of the table, in use or not, after every turn: a page of a split that no entry names yet, and an old page that is still to be written.
#[test]
fn every_page_of_every_state_rises() {
    let mut met = Met::default();
    let whole = each_seed(JOBS, |seed| {
        let job = make::mostly_small_job(&mut Random::new(seed, "rising"), seed);
        every_page(&job, |seen| {
            assert!(rise(&seen.page.calls()), "{:?}", seen.page);
            met.add(seen);
        });
    });
    if whole {
        met.has_everything();
    }
}

/// A page that an entry has named is named by one for ever: there is none that is left behind with its records.
#[test]
fn no_page_is_left_without_an_entry() {
    let mut changed = 0;
    let whole = each_seed(JOBS, |seed| {
        let job = make::small_job(&mut Random::new(seed, "named"));
        let named = |run: &Run| BTreeSet::from_iter(run.shared.file.directory.clone());
        let mut run = Run::new(&job);
        let mut before = named(&run);
        for &operation in &job.turns {
            run.deal(operation);
            let now = named(&run);
            assert!(now.is_superset(&before), "{before:?}, then {now:?}");
            changed += usize::from(now != before);
            before = now;
        }
    });
    if whole {
        assert!(changed >= 1_000, "newly named pages: {changed}");
    }
}

#[test]
fn looking_may_stop_at_the_first_higher_number() {
    let (mut found, mut stopped, mut to_the_end) = (0, 0, 0);
    let whole = each_seed(JOBS, |seed| {
        let job = make::small_job(&mut Random::new(seed, "looking"));
        every_page(&job, |Seen { page, .. }| {
            for call in calls_to_look_for(&job, page) {
                let there = among_all(page, call);
                assert_eq!(page.find(call), there, "call {call} in {page:?}");
                let higher = page.records.iter().any(|record| record.call > call);
                found += usize::from(there.is_some());
                stopped += usize::from(there.is_none() && higher);
                to_the_end += usize::from(there.is_none() && !higher);
            }
        });
    });
    if whole {
        all_seen([
            ("found", found, 100_000),
            ("stopped at a higher number", stopped, 100_000),
            ("looked at all", to_the_end, 100_000),
        ]);
    }
}

/// The calls of each page of a charge file, read from its bytes: capacity, page count and the offset of the page table from the header, and the records
/// that the page counts.
fn calls_by_page(file: &[u8]) -> Vec<Vec<u32>> {
    let length = 4 + 8 * usize::from(file[3]);
    let table = &file[four_at(file, 16) as usize..];
    let pages = table.chunks(length).take(two_at(file, 4));
    let calls = |page: &[u8]| {
        let records = (0..usize::from(page[1])).map(|k| 4 + 8 * k);
        records.map(|place| four_at(page, place)).collect()
    };
    pages.map(calls).collect()
}

/// The job cut to its first turns, by the library: each page of the file that it writes rises, and it is a file that it reads. It comes to what the tests'
/// own implementation comes to.
fn stopped_after(job: &Job, turns: usize) -> Option<Vec<Vec<u32>>> {
    let cut = Job {
        turns: job.turns[..turns].to_vec(),
        ..job.clone()
    };
    let bytes = cut.to_bytes();
    let (room, rows, memory) = least_lent(&bytes);
    let told = linked::run(&bytes, &mut Lent::new(room, rows, memory));
    let told = told.expect("a job that meets no row is run");
    let file = result::from_bytes(&told).expect("a result").charge_file;
    if let Some(file) = &file {
        let wrong = calls_by_page(file).into_iter().find(|page| !rise(page));
        assert_eq!(wrong, None, "after {turns} turns");
        assert_eq!(linked::check(file), None, "after {turns} turns");
    }
    let own = run(&bytes, room, rows, memory);
    assert_eq!(own, Outcome::Done { result: told }, "after {turns} turns");
    file.map(|file| calls_by_page(&file))
}

#[test]
fn library_every_file_of_every_stop_rises() {
    let (mut files, mut changed, mut with_neighbours) = (0, 0, 0);
    let whole = few_seeds(STOPPED, |seed| {
        let job = make::small_job(&mut Random::new(seed, "library rising"));
        let came_in = calls_by_page(&Job::charge_file(&job.file));
        for turns in 0..=job.turns.len() {
            if let Some(pages) = stopped_after(&job, turns) {
                files += 1;
                changed += usize::from(pages != came_in);
                with_neighbours += pages.iter().filter(|page| page.len() > 1).count();
            }
        }
    });
    if whole {
        all_seen([
            ("files", files, 5_000),
            ("files that are not the one that came in", changed, 2_000),
            ("pages with neighbours", with_neighbours, 20_000),
        ]);
    }
}
