//! Calls that share their whole pseudo key, in random jobs: every kind of them has such calls, and the log explains what is said of them.

mod brute;

use std::collections::BTreeMap;

use chargefile_tests::answer::{Code, CODES};
use chargefile_tests::by_hand::search;
use chargefile_tests::check;
use chargefile_tests::damage_records::{of_its_key, repeated};
use chargefile_tests::explain::explain;
use chargefile_tests::file::ChargeFile;
use chargefile_tests::job::{Job, Operation};
use chargefile_tests::key::pseudo_key;
use chargefile_tests::make;
use chargefile_tests::make_few_calls;
use chargefile_tests::make_months::{between_months, month, month_of_deletes};
use chargefile_tests::make_thin;
use chargefile_tests::one_key::others;
use chargefile_tests::page::Page;
use chargefile_tests::plain_list::{told, PlainList};
use chargefile_tests::random::Random;
use chargefile_tests::result::Contents;
use chargefile_tests::run::Run;
use chargefile_tests::seeds::each_seed;
use chargefile_tests::tally::all_seen;

const FILES: u64 = 6_000;
const JOBS: u64 = 16_000;
const DAMAGED: u64 = 1_500;

/// Whether two different ones of these calls have one key.
fn has_two(calls: &[u32]) -> bool {
    let mut by_key = BTreeMap::new();
    let mut two = |call: &u32| {
        let first = by_key.entry(pseudo_key(*call)).or_insert(*call);
        *first != *call
    };
    calls.iter().any(&mut two)
}

/// Whether a page of the file has two of one key.
fn in_a_page(file: &ChargeFile) -> bool {
    file.pages.iter().any(|page| has_two(&page.calls()))
}

/// Whether the operations ask for two of one key.
fn asked_for(job: &Job) -> bool {
    let calls: Vec<u32> = job.operations.iter().map(|o| o.call).collect();
    has_two(&calls)
}

/// Whether a full page has one key alone, and an operation goes for another call of it.
fn full_of_one_key(job: &Job) -> bool {
    let one_key = |page: &&Page| {
        let key = pseudo_key(page.records[0].call);
        page.records.iter().all(|r| pseudo_key(r.call) == key)
    };
    let full = |page: &&Page| page.records.len() == job.file.capacity;
    let asked = |page: &Page| {
        let another = |o: &Operation| {
            let same = pseudo_key(o.call) == pseudo_key(page.records[0].call);
            same && page.find(o.call).is_none()
        };
        job.operations.iter().any(another)
    };
    let mut pages = job.file.pages.iter().filter(full).filter(one_key);
    pages.any(asked)
}

/// A kind of random job: its name, how one is made, and how many were met with two in a page, asked for, and with a page full.
type Kind = (&'static str, fn(&mut Random) -> Job, [usize; 3]);

/// The random jobs are worth nothing here if they do not have such calls, in their files and in their operations.
#[test]
fn every_kind_of_random_job_has_them() {
    let mut kinds: [Kind; 4] = [
        ("any size", make::job, [0; 3]),
        ("small", make::small_job, [0; 3]),
        ("few calls", make_few_calls::job, [0; 3]),
        ("month", a_month, [0; 3]),
    ];
    let whole = each_seed(FILES, |seed| {
        for (kind, make, seen) in &mut kinds {
            let job = make(&mut Random::new(seed, kind));
            assert_eq!(check(&job.to_bytes()), None);
            seen[0] += usize::from(in_a_page(&job.file));
            seen[1] += usize::from(asked_for(&job));
            seen[2] += usize::from(full_of_one_key(&job));
        }
    });
    if whole {
        for (kind, _, seen) in kinds {
            println!("{kind}: in a page, asked for, page full: {seen:?}");
            all_seen([
                ("in a page", seen[0], 400),
                ("asked for", seen[1], 250),
                ("page full", seen[2], 60),
            ]);
        }
    }
}

fn a_month(random: &mut Random) -> Job {
    let file = between_months(random);
    if random.percent(20) {
        return month_of_deletes(random, file);
    }
    let calls = make::pool(random, file.depth);
    month(random, file, &calls)
}

/// The same of the files to be tidied.
#[test]
fn every_kind_of_random_file_has_them() {
    let (mut thin, mut between) = (0, 0);
    let whole = each_seed(FILES, |seed| {
        let random = &mut Random::new(seed, "files of one key");
        thin += usize::from(in_a_page(&make_thin::file(random)));
        between += usize::from(in_a_page(&between_months(random)));
    });
    if whole {
        all_seen([("thin", thin, 500), ("between months", between, 500)]);
    }
}

/// What is said of a call while another of its key is there, by code. The plain list is fed the log once more and asked, before each line, for the others.
fn said_beside_another(job: &Job, contents: &Contents, said: &mut [usize; CODES.len()]) {
    let mut list = PlainList::of(&job.file.holds()).unwrap();
    for line in &contents.log {
        let operation = &job.operations[line.operation];
        let code = contents.answers[line.operation].code;
        let there = |other: u32| list.feed(&search(other), None).0 == Code::Found;
        let beside = others(operation.call).into_iter().any(there);
        said[code.number()] += usize::from(beside);
        list.feed(operation, told(operation, code));
    }
}

/// The log explains every answer, those of calls beside another of their key too, and at the end the file holds what is in the plain list.
#[test]
fn the_log_explains_them() {
    let mut said = [0; CODES.len()];
    let whole = each_seed(JOBS, |seed| {
        let random = &mut Random::new(seed, "one key");
        let job = match seed % 4 {
            0 => make::small_job(random),
            1 => make::job(random),
            _ => make_few_calls::job(random),
        };
        let mut run = Run::new(&job);
        run.deal_all(&job.turns);
        let contents = run.contents();
        let list = explain(&job, &contents).unwrap();
        assert_eq!(PlainList::of(&run.shared.file.holds()), Ok(list));
        said_beside_another(&job, &contents, &mut said);
    });
    if whole {
        println!("said beside another call of the key, by code: {said:?}");
        let rarest = said[1..].iter().min().unwrap();
        assert!(*rarest >= 100, "{said:?}");
    }
}

/// The refusal, by brute force too.
fn checked(job: &[u8]) -> Option<(u32, u32)> {
    let told = check(job);
    assert_eq!(brute::first_fault(job), told);
    told
}

/// Every record of the pages that have two of one key: the number of its page, its place there, and its call.
fn records_of_one_key(file: &ChargeFile) -> Vec<(usize, usize, u32)> {
    let two = |number: &usize| has_two(&file.page(*number).calls());
    let records = (1..=file.in_use).filter(two).flat_map(|number| {
        let calls = file.page(number).calls().into_iter().enumerate();
        calls.map(move |(k, call)| (number, k, call))
    });
    records.collect()
}

/// In a page of a sound job: another call of the key in a record's place is met only for the order; the same call twice always.
#[test]
fn a_record_of_the_same_key() {
    let (mut out_of_order, mut sound, mut twice) = (0, 0, 0);
    let whole = each_seed(DAMAGED, |seed| {
        let job = make::small_job(&mut Random::new(seed, "damage of one key"));
        let bytes = job.to_bytes();
        for (number, k, call) in records_of_one_key(&job.file) {
            for other in others(call) {
                let fault = of_its_key(&job, number, k, other);
                out_of_order += usize::from(fault.is_some());
                sound += usize::from(fault.is_none());
                let Some(fault) = fault else {
                    let mut changed = job.clone();
                    changed.file.page_mut(number).records[k].call = other;
                    assert_eq!(checked(&changed.to_bytes()), None);
                    continue;
                };
                let told = checked(&fault.apply(&bytes));
                assert_eq!(told, Some((8, fault.place)));
            }
            let before = k.saturating_sub(1);
            if let Some(fault) = repeated(&job, number, before, k) {
                let told = checked(&fault.apply(&bytes));
                assert_eq!(told, Some((8, fault.place)));
                twice += 1;
            }
        }
    });
    if whole {
        println!("out of order: {out_of_order}, sound: {sound}, twice: {twice}");
        all_seen([
            ("out of order", out_of_order, 1_000),
            ("sound", sound, 1_000),
            ("twice", twice, 1_000),
        ]);
    }
}
