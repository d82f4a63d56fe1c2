//! Row 8: "pseudo key does not begin with the pattern, or the call is earlier in the page", and "a page out of order gives refusal 8 at the first record that
//! is not above the one before it". It is told at the lowest place at which any of the three holds. Every page of a few records over a few calls, and every
//! fault of a record in small files, one by one and two at a time. The tests' own implementation and the library are asked apart, each in its own tests.

mod brute;
mod linked;

use std::iter::repeat_with;

use chargefile_tests::check::least_lent;
use chargefile_tests::damage::Fault;
use chargefile_tests::damage_records::{byte_of_call, counted, exchanged, misfiled, repeated};
use chargefile_tests::file::ChargeFile;
use chargefile_tests::job::Job;
use chargefile_tests::page::{page_length, Page, Record};
use chargefile_tests::random::Random;
use chargefile_tests::seeds::few_seeds;
use chargefile_tests::{check, make, run, Outcome};

use brute::{first_fault, Refusal};

/// Files whose faults are all tried.
const FILES: u64 = 150;
/// The most bytes of a page table, in use or not.
const TABLE: usize = 1_000;
/// One case of so many is run as well.
const SHARE: usize = 16;
/// The global depth and the capacity where every page is tried.
const DEPTH: usize = 2;
const CAPACITY: usize = 4;

/// Calls whose pseudo keys share few of their first bits, and calls that rise by other bytes than the first, past the highest bit too. Of either there are
/// two for each pattern of two bits; the first bits of the small ones are 0 and 1 by turns.
const SMALL: [u32; 8] = [0, 1, 4, 5, 9, 12, 13, 15];
const WIDE: [u32; 8] = [
    7,
    0x0101,
    0x0102,
    0x01_0000,
    0x0100_0003,
    0x7fff_ffff,
    0x8000_0000,
    u32::MAX,
];

/// Asks somebody about a job, given what is wanted of the check and how many cases there were before.
type Ask = fn(&[u8], Option<Refusal>, usize);

/// What a run comes to, with what it is lent: a refusal is the same whatever is lent, since "11 comes last", and a job that is not refused is run.
fn runs(job: &[u8], wanted: Option<Refusal>) -> Vec<((usize, usize, usize), Outcome)> {
    let least = least_lent(job);
    let outcome = run(job, least.0, least.1, least.2);
    let Some((number, place)) = wanted else {
        assert!(matches!(outcome, Outcome::Done { .. }), "{outcome:?}");
        return vec![(least, outcome)];
    };
    let refused = Outcome::Refused { number, place };
    assert_eq!(outcome, refused);
    assert_eq!(run(job, 0, 0, 0), refused);
    vec![(least, outcome), ((0, 0, 0), refused)]
}

/// The tests' own implementation, and brute force.
fn own(job: &[u8], wanted: Option<Refusal>, before: usize) {
    assert_eq!(check(job), wanted);
    assert_eq!(first_fault(job), wanted, "by brute force");
    if before % SHARE == 0 {
        runs(job, wanted);
    }
}

/// The library; where it is run and refuses, nothing lent is written.
fn library(job: &[u8], wanted: Option<Refusal>, before: usize) {
    let told = wanted.map(|(number, place)| (u64::from(number), u64::from(place)));
    assert_eq!(linked::check(job), told);
    if before % SHARE == 0 {
        for (lent, outcome) in runs(job, wanted) {
            linked::comes_to(job, lent, &outcome);
        }
    }
}

/// What is wrong with a record: one for each sentence.
#[derive(Clone, Copy, Debug, Default, PartialEq, Eq)]
struct Wrong {
    not_begun: bool,
    not_above: bool,
    earlier: bool,
}

impl Wrong {
    /// By each sentence alone: the pseudo key, as a text, does not begin with the pattern's bits; the call is not above the one before it; the call is
    /// earlier in the page.
    fn of(calls: &[u32], k: usize, pattern: &str) -> Wrong {
        Wrong {
            not_begun: !key_text(calls[k]).starts_with(pattern),
            not_above: k > 0 && calls[k] <= calls[k - 1],
            earlier: calls[..k].contains(&calls[k]),
        }
    }

    fn any(self) -> bool {
        self.not_begun || self.not_above || self.earlier
    }
}

/// The pseudo key as a text of 32 bits. Its multiplications are of whole numbers, with the remainder taken of each.
fn key_text(call: u32) -> String {
    let bytes = [1, 256, 65_536, 16_777_216].map(|worth| u64::from(call) / worth % 256);
    let key = bytes.iter().fold(2_166_136_261, |key, byte| {
        (key ^ byte) * 16_777_619 % 4_294_967_296
    });
    format!("{key:032b}")
}

/// How often a record was told, by what is wrong with it.
#[derive(Debug, Default)]
struct Told {
    asked: usize,
    accepted: usize,
    only_not_begun: usize,
    only_not_above: usize,
    both: usize,
    again: usize,
}

impl Told {
    fn count(&mut self, wrong: Option<Wrong>) {
        self.asked += 1;
        let Some(wrong) = wrong else {
            self.accepted += 1;
            return;
        };
        assert!(
            wrong.not_above || !wrong.earlier,
            "a call twice is one that does not rise"
        );
        match (wrong.not_begun, wrong.not_above) {
            (true, false) => self.only_not_begun += 1,
            (false, true) => self.only_not_above += 1,
            _ => self.both += 1,
        }
        self.again += usize::from(wrong.earlier);
    }

    fn each_at_least(&self, least: usize) {
        println!("{self:?}");
        let kinds = [
            self.accepted,
            self.only_not_begun,
            self.only_not_above,
            self.both,
            self.again,
        ];
        assert!(kinds.iter().all(|times| *times >= least), "{self:?}");
    }
}

/// All lists of at most so many of these calls, in every order, the same call more than once too.
fn lists(calls: &[u32], most: usize) -> Vec<Vec<u32>> {
    let (mut all, mut longest) = (vec![vec![]], vec![vec![]]);
    for _ in 0..most {
        let longer = |list: &Vec<u32>| {
            let list = list.clone();
            calls.iter().map(move |call| [&list[..], &[*call]].concat())
        };
        longest = longest.iter().flat_map(longer).collect();
        all.extend(longest.clone());
    }
    all
}

/// A job of a file all of whose pages in use have this local depth. They have these patterns, one after another, and these calls.
fn job_of(local: usize, pages: &[(usize, &[u32])]) -> Vec<u8> {
    let mut file = ChargeFile::empty(DEPTH as u32, CAPACITY, 1 << DEPTH);
    file.in_use = pages.len();
    for (i, (pattern, calls)) in pages.iter().enumerate() {
        let record = |&call: &u32| Record { call, charge: 7 };
        file.pages[i] = Page {
            depth: local as u32,
            pattern: *pattern as u32,
            records: calls.iter().map(record).collect(),
        };
        let owned = (0..1 << DEPTH).filter(|j| j >> (DEPTH - local) == *pattern);
        owned.for_each(|j| file.directory[j] = i + 1);
    }
    Job::charge_file(&file)
}

/// Asks about a job of these pages; the record that is told is the first that has anything wrong with it.
fn ask_about(ask: Ask, told: &mut Told, local: usize, pages: &[(usize, &[u32])]) {
    let mut first = None;
    for (i, (pattern, calls)) in pages.iter().enumerate().rev() {
        let pattern = &format!("{pattern:02b}")[DEPTH - local..];
        for k in (0..calls.len()).rev() {
            let wrong = Wrong::of(calls, k, pattern);
            let place = 32 + (2 << DEPTH) + (4 + 8 * CAPACITY) * i + 4 + 8 * k;
            first = wrong.any().then_some((wrong, place)).or(first);
        }
    }
    let wanted = first.map(|(_, place)| (8, place as u32));
    ask(&job_of(local, pages), wanted, told.asked);
    told.count(first.map(|(wrong, _)| wrong));
}

/// Every page of up to four of eight calls, under every pattern of up to two bits; the other pages are empty.
fn every_small_page(ask: Ask) {
    let mut told = Told::default();
    let all = [lists(&SMALL, CAPACITY), lists(&WIDE, CAPACITY)].concat();
    for calls in &all {
        for local in 0..=DEPTH {
            for pattern in 0..1 << local {
                let records = |p: usize| if p == pattern { &calls[..] } else { &[] };
                let pages: Vec<(usize, &[u32])> =
                    (0..1 << local).map(|p| (p, records(p))).collect();
                ask_about(ask, &mut told, local, &pages);
            }
        }
    }
    assert_eq!(told.asked, 2 * 7 * (1 + 8 + 64 + 512 + 4_096));
    // at most four of eight calls, of the four that have the pattern's one bit, or of the two that have its two bits
    assert_eq!(told.accepted, 2 * (163 + 2 * 16 + 4 * 4));
    told.each_at_least(400);
}

/// Every two pages of up to three of four calls, either pattern first: the page in front is told, and no call is held against those of another page.
fn every_two_small_pages(ask: Ask) {
    let mut told = Told::default();
    let all = lists(&SMALL[1..5], 3);
    for front in &all {
        for behind in &all {
            for pattern in 0..2 {
                let pages: [(usize, &[u32]); 2] = [(pattern, front), (1 - pattern, behind)];
                ask_about(ask, &mut told, 1, &pages);
            }
        }
    }
    assert_eq!(told.asked, 2 * (1 + 4 + 16 + 64) * (1 + 4 + 16 + 64));
    assert_eq!(told.accepted, 2 * 4 * 4);
    told.each_at_least(32);
}

/// A job with a small page table.
fn small_file(random: &mut Random) -> Job {
    let small = |job: &Job| job.file.pages.len() * page_length(job.file.capacity) <= TABLE;
    let mut jobs = repeat_with(|| make::small_job(random));
    jobs.find(small).expect("a small file comes along")
}

/// Every fault of the records of a page, by its kind: a record that belongs elsewhere, a call twice, neighbours exchanged, the first byte of a call and the
/// last, and zeros counted as records. Of the bytes of a call these values are tried.
fn every_fault(job: &Job, page: usize, values: &[u8]) -> [Vec<Fault>; 6] {
    let held = job.file.page(page).records.len();
    let each = |fault: &dyn Fn(usize) -> Vec<Option<Fault>>| {
        let faults = (0..held).flat_map(fault).flatten();
        faults.collect::<Vec<Fault>>()
    };
    let bytes = |k: usize, at: usize| {
        let with = |value: &u8| byte_of_call(job, page, k, at, *value);
        values.iter().map(with).collect()
    };
    [
        each(&|k| {
            (0..8)
                .map(|position| misfiled(job, page, k, position))
                .collect()
        }),
        each(&|k| {
            (0..held)
                .map(|later| repeated(job, page, k, later))
                .collect()
        }),
        each(&|k| vec![exchanged(job, page, k)]),
        each(&|k| bytes(k, 0)),
        each(&|k| bytes(k, 3)),
        (0..=255)
            .filter_map(|count| counted(job, page, count))
            .collect(),
    ]
}

/// Each fault of each page alone.
fn one_by_one(ask: Ask) {
    let (mut asked, mut kinds) = (0, [0; 6]);
    let values: Vec<u8> = (0..=255).collect();
    let whole = few_seeds(FILES, |seed| {
        let job = small_file(&mut Random::new(seed, "a record's fault"));
        let bytes = job.to_bytes();
        for page in 1..=job.file.in_use {
            for (kind, faults) in every_fault(&job, page, &values).iter().enumerate() {
                for fault in faults {
                    ask(&fault.apply(&bytes), Some((8, fault.place)), asked);
                    asked += 1;
                }
                kinds[kind] += faults.len();
            }
        }
    });
    if whole {
        println!("{asked} faults, by kind {kinds:?}");
        assert!(kinds.iter().all(|times| *times >= 300), "{kinds:?}");
    }
}

/// Two faults in one file, of one page or of two: the lowest place.
fn two_at_a_time(ask: Ask) {
    let (mut one_page, mut two_pages) = (0, 0);
    let whole = few_seeds(FILES, |seed| {
        let random = &mut Random::new(seed, "two records' faults");
        let job = small_file(random);
        let bytes = job.to_bytes();
        let values = [0, 1, 255, random.nonzero_byte()];
        let in_page = |page: usize| every_fault(&job, page, &values).concat();
        let in_pages = (1..=job.file.in_use)
            .flat_map(|page| in_page(page).into_iter().map(move |fault| (page, fault)));
        let mut faults: Vec<(usize, Fault)> = in_pages.collect();
        random.shuffle(&mut faults);
        faults.truncate(120);
        for (i, (page, one)) in faults.iter().enumerate() {
            for (other_page, other) in faults[i + 1..]
                .iter()
                .filter(|(_, other)| one.stands_beside(other))
            {
                let told = Fault::first_of(one, other);
                let damaged = one.apply(&other.apply(&bytes));
                ask(&damaged, Some((8, told.place)), one_page + two_pages);
                one_page += usize::from(page == other_page);
                two_pages += usize::from(page != other_page);
            }
        }
    });
    if whole {
        println!("two faults in one page {one_page}, in two {two_pages}");
        assert!(
            one_page >= 15_000 && two_pages >= 15_000,
            "{one_page}, {two_pages}"
        );
    }
}

#[test]
fn small_pages() {
    every_small_page(own);
}

#[test]
fn two_small_pages() {
    every_two_small_pages(own);
}

#[test]
fn one_fault() {
    one_by_one(own);
}

#[test]
fn two_faults() {
    two_at_a_time(own);
}

#[test]
fn library_small_pages() {
    every_small_page(library);
}

#[test]
fn library_two_small_pages() {
    every_two_small_pages(library);
}

#[test]
fn library_one_fault() {
    one_by_one(library);
}

#[test]
fn library_two_faults() {
    two_at_a_time(library);
}
