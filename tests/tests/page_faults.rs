//! Every fault of every page of small files, one by one and two at a time: "12 (depth or pattern, at that field), then 6, then 13 (at the first byte that
//! should be zero and is not), within each page before the next page is looked at, and on an unused page 13 alone". The tests' own implementation and the
//! library are asked apart, each in its own tests.

mod brute;
mod linked;

use std::iter::repeat_with;

use chargefile_tests::check::least_lent;
use chargefile_tests::damage::Fault;
use chargefile_tests::damage_pages::{byte, count, depth, pattern};
use chargefile_tests::job::Job;
use chargefile_tests::page::page_length;
use chargefile_tests::random::Random;
use chargefile_tests::seeds::few_seeds;
use chargefile_tests::tally::Tally;
use chargefile_tests::{check, make, run, Outcome};

use brute::{first_fault, Refusal};

/// Files whose faults are all tried.
const FILES: u64 = 300;
/// Files of which every pattern is tried.
const PATTERN_FILES: u64 = 3;
/// The most bytes of a page table, in use or not, so that many files can be gone through byte by byte.
const TABLE: usize = 1_000;
/// One case of so many is run as well.
const SHARE: usize = 16;

/// Asks somebody about a damaged job, given the refusal that is wanted and how many cases there were before.
type Ask = fn(&[u8], Refusal, usize);

/// The tests' own implementation, and brute force.
fn own(damaged: &[u8], (number, place): Refusal, before: usize) {
    let told = Some((number, place));
    assert_eq!(check(damaged), told);
    assert_eq!(first_fault(damaged), told, "by brute force");
    if before % SHARE == 0 {
        let (result, rows, memory) = least_lent(damaged);
        let refused = Outcome::Refused { number, place };
        assert_eq!(run(damaged, result, rows, memory), refused);
        assert_eq!(run(damaged, 0, 0, 0), refused, "11 comes last");
    }
}

/// The library; where it is run, nothing lent is written.
fn library(damaged: &[u8], (number, place): Refusal, before: usize) {
    let told = (u64::from(number), u64::from(place));
    assert_eq!(linked::check(damaged), Some(told));
    if before % SHARE == 0 {
        let refused = Outcome::Refused { number, place };
        linked::comes_to(damaged, least_lent(damaged), &refused);
        linked::comes_to(damaged, (0, 0, 0), &refused);
    }
}

/// A job with a small page table.
fn small_file(random: &mut Random) -> Job {
    let small = |job: &Job| job.file.pages.len() * page_length(job.file.capacity) <= TABLE;
    let mut jobs = repeat_with(|| make::small_job(random));
    jobs.find(small).expect("a small file comes along")
}

/// Patterns about every power of two: it, the one above, and the last before the next power, 65,535 among them.
fn patterns() -> impl Iterator<Item = u16> {
    (0..16).flat_map(|bit| [1 << bit, (1 << bit) + 1, u16::MAX >> (15 - bit)])
}

/// Every fault of a page: of its depth, its pattern, its count, and of each byte that should be zero.
fn every_fault(random: &mut Random, job: &Job, page: usize) -> Vec<Fault> {
    let mut faults = Vec::new();
    faults.extend((0..=255).filter_map(|value| depth(job, page, value)));
    faults.extend(patterns().filter_map(|value| pattern(job, page, value)));
    faults.extend((0..=255).filter_map(|value| count(job, page, value)));
    for at in 0..page_length(job.file.capacity) {
        let values = [1, 128, 255, random.nonzero_byte()];
        faults.extend(
            values
                .iter()
                .filter_map(|value| byte(job, page, at, *value)),
        );
    }
    faults
}

/// The faults of a page to be paired: the first and the last value of a field that is met, every count that is too small, and each byte that should be
/// zero.
fn faults_to_pair(random: &mut Random, job: &Job, page: usize) -> Vec<Fault> {
    let (above_g, above_c) = (job.file.depth as u8 + 1, job.file.capacity as u8 + 1);
    let first_pattern = 1 << job.file.page(page).depth;
    let depths = [0, above_g, 255].map(|value| depth(job, page, value));
    let patterns = [first_pattern, 65_535].map(|value| pattern(job, page, value));
    let counts = [above_c, 255].map(|value| count(job, page, value));
    let fewer = (0..above_c).map(|value| count(job, page, value));
    let places = 0..page_length(job.file.capacity);
    let bytes = places.map(|at| byte(job, page, at, random.nonzero_byte()));
    let fields = depths.into_iter().chain(patterns).chain(counts);
    fields.chain(fewer).chain(bytes).flatten().collect()
}

/// Asks about a job with these faults, of which one is told.
fn ask_about(ask: Ask, tally: &mut Tally, job: &[u8], faults: &[&Fault], told: &Fault) {
    let damaged = faults
        .iter()
        .fold(job.to_vec(), |job, fault| fault.apply(&job));
    ask(&damaged, (told.number, told.place), tally.total());
    tally.count(told.number);
}

/// Each fault of each page alone.
fn one_by_one(ask: Ask) {
    let mut tally = Tally::default();
    let whole = few_seeds(FILES, |seed| {
        let random = &mut Random::new(seed, "a page's fault");
        let job = small_file(random);
        let bytes = job.to_bytes();
        for page in 1..=job.file.pages.len() {
            for fault in every_fault(random, &job, page) {
                ask_about(ask, &mut tally, &bytes, &[&fault], &fault);
            }
        }
    });
    if whole {
        println!("{} faults", tally.total());
        tally.all_met([12, 6, 13], 50_000);
    }
}

/// Every pattern of every page in use.
fn pattern_by_pattern(ask: Ask) {
    let mut tally = Tally::default();
    let whole = few_seeds(PATTERN_FILES, |seed| {
        let random = &mut Random::new(seed, "a page's pattern");
        let job = small_file(random);
        let bytes = job.to_bytes();
        for page in 1..=job.file.in_use {
            for fault in (0..=u16::MAX).filter_map(|value| pattern(&job, page, value)) {
                ask_about(ask, &mut tally, &bytes, &[&fault], &fault);
            }
        }
    });
    if whole {
        tally.all_met([12], 65_000 * PATTERN_FILES as usize);
    }
}

/// Two faults of one page: 12 before 6 before 13, the depth before the pattern, and of several bytes the first.
fn two_in_one_page(ask: Ask) {
    let mut tally = Tally::default();
    let whole = few_seeds(FILES, |seed| {
        let random = &mut Random::new(seed, "a page's two faults");
        let job = small_file(random);
        let bytes = job.to_bytes();
        for page in 1..=job.file.pages.len() {
            let faults = faults_to_pair(random, &job, page);
            for (i, one) in faults.iter().enumerate() {
                let others = faults[i + 1..].iter();
                for other in others.filter(|other| one.stands_beside(other)) {
                    let told = Fault::first_of(one, other);
                    ask_about(ask, &mut tally, &bytes, &[one, other], told);
                }
            }
        }
    });
    if whole {
        println!("{} pairs in one page", tally.total());
        tally.all_met([12, 6, 13], 10_000);
    }
}

/// A fault in each of two pages: the one of the page in front, whatever their numbers.
fn in_two_pages(ask: Ask) {
    let mut tally = Tally::default();
    let mut number_falls = 0;
    let whole = few_seeds(FILES, |seed| {
        let random = &mut Random::new(seed, "two pages' faults");
        let job = small_file(random);
        let bytes = job.to_bytes();
        let kinds: Vec<Vec<Fault>> = (1..=job.file.pages.len())
            .map(|page| one_of_each_kind(random, &job, page))
            .collect();
        for (i, front) in kinds.iter().enumerate() {
            for one in front {
                for other in kinds[i + 1..].iter().flatten() {
                    ask_about(ask, &mut tally, &bytes, &[one, other], one);
                    number_falls += usize::from(one.number > other.number);
                }
            }
        }
    });
    if whole {
        println!("{} pairs in two pages", tally.total());
        tally.all_met([12, 6, 13], 20_000);
        assert!(
            number_falls > 20_000,
            "the higher number told: {number_falls}"
        );
    }
}

/// Some fault of the depth, the pattern and the count, and of the first and the last byte that should be zero.
fn one_of_each_kind(random: &mut Random, job: &Job, page: usize) -> Vec<Fault> {
    let mut faults = every_fault(random, job, page);
    // shuffled first: which value is kept for a place is left to chance
    random.shuffle(&mut faults);
    faults.sort_by_key(|fault| (fault.number, fault.place));
    faults.dedup_by_key(|fault| (fault.number, fault.place));
    let of_bytes = |fault: &Fault| fault.number == 13;
    let (bytes, mut chosen): (Vec<Fault>, Vec<Fault>) = faults.into_iter().partition(of_bytes);
    chosen.extend(bytes.first().cloned());
    chosen.extend(bytes.last().cloned());
    chosen
}

#[test]
fn one_fault() {
    one_by_one(own);
}

#[test]
fn every_pattern() {
    pattern_by_pattern(own);
}

#[test]
fn two_faults_in_one_page() {
    two_in_one_page(own);
}

#[test]
fn a_fault_in_each_of_two_pages() {
    in_two_pages(own);
}

#[test]
fn library_one_fault() {
    one_by_one(library);
}

#[test]
fn library_every_pattern() {
    pattern_by_pattern(library);
}

#[test]
fn library_two_faults_in_one_page() {
    two_in_one_page(library);
}

#[test]
fn library_a_fault_in_each_of_two_pages() {
    in_two_pages(library);
}
