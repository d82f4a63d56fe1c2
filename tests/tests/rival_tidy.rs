//! The tidying of the tuned rival (tests/rival) against the tests' own: what it writes and what it refuses, on every vector, on files made by hand,
//! random files and damaged ones.

use std::ops::Range;

use chargefile_tests::damage::{fault, scribble, NUMBERS};
use chargefile_tests::file::ChargeFile;
use chargefile_tests::job::{Job, Kind, Operation};
use chargefile_tests::key::{call_with, pseudo_key};
use chargefile_tests::make;
use chargefile_tests::page::{Page, Record};
use chargefile_tests::random::Random;
use chargefile_tests::seeds::each_seed;
use chargefile_tests::tally::Tally;
use chargefile_tests::vectors;
use chargefile_tests::{check, tidy, Outcome};

/// Enough for every charge file, and more.
const ENOUGH: usize = 20_000;

const FILES: u64 = 2_000;

/// What the rival's tidying comes to in a buffer of so many bytes. The tests' own comes to the same.
fn tidied(file: &[u8], depth: u64, room: usize) -> Outcome {
    let told = Outcome::written(room, |out| rival::tidy(file, depth, out));
    assert_eq!(told, tidy(file, depth, room));
    told
}

/// At every depth and one past the last: with enough lent, and where it is tidied with just enough and a byte less.
fn at_every_depth(file: &[u8], tally: &mut Tally) {
    for depth in 0..=9 {
        match tidied(file, depth, ENOUGH) {
            Outcome::Refused { number, .. } => tally.count(number),
            Outcome::Done { result } => {
                tidied(file, depth, result.len());
                tidied(file, depth, result.len() - 1);
                tally.count(0);
            }
        }
    }
}

#[test]
fn every_vector() {
    for vector in vectors::to_be_tidied() {
        let outcome = tidied(&vector.file, vector.depth, vector.room);
        assert_eq!(outcome, vector.wanted, "{}", vector.name);
    }
}

/// Files of random jobs, of which deletes have left some records, few or none; the jobs themselves; and damaged files.
#[test]
fn random_files() {
    let mut tally = Tally::default();
    let whole = each_seed(FILES, |seed| {
        let random = &mut Random::new(seed, "rival tidying");
        let mut job = make::mostly_small_job(random, seed);
        at_every_depth(&job.to_bytes(), &mut tally);
        let of_ten = random.below(11);
        for page in &mut job.file.pages {
            page.records.retain(|_| random.below(10) < of_ten);
        }
        let file = Job::charge_file(&job.file);
        at_every_depth(&file, &mut tally);
        (job.operations, job.turns) = (Vec::new(), Vec::new());
        let number = random.one_of(&NUMBERS);
        let faulty = fault(random, &job, number).map(|fault| fault.apply(&file));
        for damaged in faulty.into_iter().chain([scribble(random, &file)]) {
            at_every_depth(&damaged, &mut tally);
        }
    });
    if whole {
        tally.all_met([0, 1, 2, 3, 4, 5, 12, 6, 13, 7, 8, 18, 19], 50);
    }
}

/// A page in words: local depth, pattern, calls.
type Told<'a> = (u32, u32, &'a [u32]);

/// A charge file with these pages in use; every call has itself for its charge.
fn file_of(depth: u32, capacity: usize, pages: usize, told: &[Told]) -> Vec<u8> {
    let mut file = ChargeFile::empty(depth, capacity, pages);
    file.in_use = told.len();
    for (x, (local, pattern, calls)) in told.iter().enumerate() {
        let record = |call: &u32| Record {
            call: *call,
            charge: *call,
        };
        file.pages[x] = Page {
            depth: *local,
            pattern: *pattern,
            records: calls.iter().map(record).collect(),
        };
        for j in 0..1 << depth {
            if file.pages[x].owns(j, depth) {
                file.directory[j] = x + 1;
            }
        }
    }
    Job::charge_file(&file)
}

/// Lent just enough it comes to this; with a byte less it is refused; and what it comes to is tidied already.
fn comes_to(file: &[u8], depth: u64, wanted: Vec<u8>) {
    let room = wanted.len();
    let refused = Outcome::Refused {
        number: 11,
        place: 0,
    };
    assert_eq!(check(&wanted), None);
    let done = Outcome::Done { result: wanted };
    assert_eq!(tidied(file, depth, room), done);
    assert_eq!(tidied(file, depth, ENOUGH), done);
    assert_eq!(tidied(file, depth, room - 1), refused);
    let Outcome::Done { result: wanted } = &done else {
        unreachable!()
    };
    assert_eq!(tidied(wanted, depth, room), done);
}

#[test]
fn tidied_by_hand() {
    let thin: [Told; 4] = [(2, 3, &[1]), (2, 1, &[7]), (2, 2, &[3, 5]), (2, 0, &[4])];
    let joined = [1, 3, 4, 5, 7];
    let file = file_of(2, 5, 6, &thin);
    comes_to(&file, 2, file_of(2, 5, 6, &[(0, 0, &joined)]));
    comes_to(&file, 0, file_of(0, 5, 6, &[(0, 0, &joined)]));
    let left: [Told; 2] = [(1, 0, &[4, 7]), (1, 1, &[1, 3, 5])];
    comes_to(&file_of(2, 4, 4, &thin), 1, file_of(1, 4, 4, &left));
    let left: [Told; 3] = [(1, 0, &[4, 7]), (2, 2, &[3, 5]), (2, 3, &[1])];
    comes_to(&file_of(2, 2, 4, &thin), 8, file_of(8, 2, 4, &left));
    let uneven: [Told; 3] = [(2, 2, &[3]), (1, 0, &[4]), (2, 3, &[1, 2])];
    let left: [Told; 3] = [(1, 0, &[4]), (2, 2, &[3]), (2, 3, &[1, 2])];
    comes_to(&file_of(3, 2, 3, &uneven), 2, file_of(2, 2, 3, &left));
    let all = [4, 7, 9, 10, 11, 13, 14, 16];
    let first_full: [Told; 2] = [(1, 0, &all), (1, 1, &[])];
    comes_to(
        &file_of(1, 8, 2, &first_full),
        1,
        file_of(1, 8, 2, &[(0, 0, &all)]),
    );
}

/// So many calls under each of these patterns of 8 bits, all of them by rising number.
fn calls_under(patterns: Range<u32>, records: u32) -> Vec<u32> {
    let under = |p: u32| (0..records).map(move |r| call_with(p, 8, r << 8));
    let mut calls: Vec<u32> = patterns.flat_map(under).collect();
    calls.sort();
    calls
}

/// 256 pages with so many records each, the last pattern first.
fn large(records: u32) -> Vec<u8> {
    let calls = |p: u32| calls_under(p..p + 1, records);
    let pages: Vec<(u32, Vec<u32>)> = (0..256).rev().map(|p| (p, calls(p))).collect();
    let told: Vec<Told> = pages.iter().map(|(p, calls)| (8, *p, &calls[..])).collect();
    file_of(8, 8, 256, &told)
}

/// At most 8 in a page: none, one, two, four records in each of 256 pages come to 1, 32, 64, 128 pages, and five to as many as there were.
#[test]
fn tidied_at_the_limits() {
    for (records, depth) in [(0, 0), (1, 5), (2, 6), (4, 7), (5, 8), (8, 8)] {
        let file = large(records);
        let per_page = 1 << (8 - depth);
        let calls = |p: u32| calls_under(p * per_page..(p + 1) * per_page, records);
        let pages: Vec<Vec<u32>> = (0..1 << depth).map(calls).collect();
        let told = (0..).zip(&pages).map(|(p, calls)| (depth, p, &calls[..]));
        let told: Vec<Told> = told.collect();
        for wanted in depth..=8 {
            comes_to(&file, wanted.into(), file_of(wanted, 8, 256, &told));
        }
        let refused = Outcome::Refused {
            number: 19,
            place: 0,
        };
        for wanted in (0..depth.into()).chain([9, 256, 1 << 32, u64::MAX]) {
            assert_eq!(tidied(&file, wanted, ENOUGH), refused);
        }
    }
}

/// Two calls with one pseudo key stay together, whatever is joined with them.
#[test]
fn two_calls_of_one_key() {
    let (one, other) = (474_790_318, 141_231_736);
    assert_eq!(pseudo_key(one), pseudo_key(other));
    let deep: [Told; 3] = [(2, 1, &[other, one]), (1, 1, &[1]), (2, 0, &[4])];
    let joined = [1, 4, other, one];
    let file = file_of(2, 4, 3, &deep);
    comes_to(&file, 8, file_of(8, 4, 3, &[(0, 0, &joined)]));
    let left: [Told; 2] = [(1, 0, &[4, other, one]), (1, 1, &[1])];
    comes_to(&file_of(2, 3, 3, &deep), 1, file_of(1, 3, 3, &left));
    let left: [Told; 3] = [(2, 0, &[4]), (2, 1, &[other, one]), (1, 1, &[1])];
    comes_to(&file_of(2, 2, 3, &deep), 3, file_of(3, 2, 3, &left));
}

/// The job's own refusal, then 18, then 19, then 11.
#[test]
fn tidying_refused() {
    let refused = |number, place| Outcome::Refused { number, place };
    let search = Operation {
        kind: Kind::Search,
        call: 1,
        charge: 0,
    };
    let mut job = Job {
        file: ChargeFile::empty(1, 2, 2),
        operations: vec![search],
        turns: vec![0],
    }
    .to_bytes();
    assert_eq!(tidied(&job, 9, 0), refused(18, 8));
    let last = job.len() - 2;
    job[last] = 1;
    assert_eq!(tidied(&job, 9, 0), refused(10, last as u32));
    assert_eq!(tidied(&[], 9, 0), refused(1, 0));
    let file = file_of(1, 1, 2, &[(1, 0, &[4]), (1, 1, &[3])]);
    assert_eq!(tidied(&file, 9, 0), refused(19, 0));
    assert_eq!(tidied(&file, 0, 0), refused(19, 0));
    assert_eq!(tidied(&file, 1, 0), refused(11, 0));
}
