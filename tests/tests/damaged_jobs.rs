//! Damaged jobs: each is refused with the number and place that the table of
//! the document asks for ("Refused jobs").

mod brute;

use chargefile_tests::check::{result_room, WORKING_MEMORY};
use chargefile_tests::damage::{fault, scribble, Fault, NUMBERS};
use chargefile_tests::explain::explain;
use chargefile_tests::job::Job;
use chargefile_tests::make;
use chargefile_tests::random::Random;
use chargefile_tests::result;
use chargefile_tests::seeds::{each_seed, few_seeds};
use chargefile_tests::tally::Tally;
use chargefile_tests::vectors;
use chargefile_tests::{check, report, run, Outcome};

use brute::{all_faults, first_fault, Refusal};

const JOBS: u64 = 8_000;
const PLENTY: usize = 1 << 20;

/// The damaged job is refused just so, whatever is lent: "11 comes last".
fn refused(damaged: &[u8], (number, place): Refusal) {
    assert_eq!(check(damaged), Some((number, place)));
    assert_eq!(
        first_fault(damaged),
        Some((number, place)),
        "by brute force"
    );
    let wanted = Outcome::Refused { number, place };
    for lent in [PLENTY, 0] {
        assert_eq!(run(damaged, lent, lent, lent), wanted);
    }
    let line = format!("refused {number} {place}\n");
    assert_eq!(report(damaged), line.into_bytes());
}

/// A job that no row meets is run, and its log explains it.
fn accepted(job: &[u8]) {
    assert_eq!(first_fault(job), None, "by brute force");
    let Outcome::Done { result } = run(job, PLENTY, PLENTY, PLENTY) else {
        panic!("a job that meets no row is run");
    };
    let contents = result::from_bytes(&result).unwrap();
    explain(&Job::from_bytes(job), &contents).unwrap();
}

#[test]
fn one_fault_at_a_known_place() {
    let mut tally = Tally::default();
    let whole = each_seed(JOBS, |seed| {
        let random = &mut Random::new(seed, "one fault");
        let job = make::small_job(random);
        let bytes = job.to_bytes();
        accepted(&bytes);
        for number in NUMBERS {
            if let Some(fault) = fault(random, &job, number) {
                assert_eq!(fault.number, number);
                refused(&fault.apply(&bytes), (fault.number, fault.place));
                tally.count(number);
            }
        }
    });
    if whole {
        tally.all_met(NUMBERS, 2_000);
    }
}

#[test]
fn of_two_faults_the_one_checked_first() {
    let (mut drawn, mut told) = (Tally::default(), Tally::default());
    let (mut same_row, mut in_pages) = (0, 0);
    let whole = each_seed(JOBS, |seed| {
        let random = &mut Random::new(seed, "two faults");
        let job = make::small_job(random);
        for first in NUMBERS {
            let second = match random.below(3) {
                0 => first,
                _ => random.one_of(&NUMBERS),
            };
            let one = fault(random, &job, first);
            let other = fault(random, &job, second);
            let (Some(one), Some(other)) = (one, other) else {
                continue;
            };
            if one.stands_beside(&other) {
                let damaged = one.apply(&other.apply(&job.to_bytes()));
                let met = Fault::first_of(&one, &other);
                refused(&damaged, (met.number, met.place));
                drawn.count(first);
                told.count(met.number);
                same_row += usize::from(first == second);
                in_pages += usize::from(of_a_page(first) && of_a_page(second));
            }
        }
    });
    if whole {
        println!("two faults of one row: {same_row}, two of pages: {in_pages}");
        drawn.all_met(NUMBERS, 1_000);
        told.all_met(NUMBERS, 500);
        assert!(same_row >= 3_000, "two faults of one row: {same_row}");
        assert!(in_pages >= 3_000, "two faults of pages: {in_pages}");
    }
}

/// Whether a row is looked for page by page.
fn of_a_page(number: u32) -> bool {
    [12, 6, 13].contains(&number)
}

#[test]
fn scribbled_jobs_agree_with_brute_force() {
    let mut tally = Tally::default();
    let mut many_faults = 0;
    let whole = each_seed(JOBS, |seed| {
        let random = &mut Random::new(seed, "scribble");
        let job = make::small_job(random).to_bytes();
        // So many that refusal 6, the rarest, is met often enough too.
        for _ in 0..12 {
            let damaged = scribble(random, &job);
            match first_fault(&damaged) {
                Some((number, place)) => {
                    refused(&damaged, (number, place));
                    tally.count(number);
                    many_faults += usize::from(all_faults(&damaged).len() > 1);
                }
                None => {
                    accepted(&damaged);
                    tally.count(0);
                }
            }
        }
    });
    if whole {
        println!("with more than one fault: {many_faults}");
        tally.all_met(NUMBERS.into_iter().chain([0]), 300);
        assert!(many_faults >= 5_000);
    }
}

/// The stored refusals are what brute force finds as well.
#[test]
fn stored_refusals_agree_with_brute_force() {
    let mut tally = Tally::default();
    for vector in vectors::all() {
        let wanted = vector.checked();
        assert_eq!(first_fault(&vector.job), wanted, "{}", vector.name);
        tally.count(wanted.map_or(0, |(number, _)| number));
    }
    for vector in vectors::to_be_tidied() {
        let wanted = check(&vector.file);
        assert_eq!(first_fault(&vector.file), wanted, "{}", vector.name);
    }
    for vector in vectors::to_be_dealt() {
        let wanted = check(&vector.job);
        assert_eq!(first_fault(&vector.job), wanted, "{}", vector.name);
    }
    tally.all_met(NUMBERS.into_iter().chain([0]), 5);
}

/// Every length of a job but its own, and some longer ones.
#[test]
fn every_other_length_is_refused() {
    few_seeds(60, |seed| {
        let job = make::small_job(&mut Random::new(seed, "lengths")).to_bytes();
        for length in (0..job.len() + 40).filter(|length| *length != job.len()) {
            let mut damaged = job.clone();
            damaged.resize(length, 0);
            let wanted = if length < 32 {
                (1, length as u32)
            } else {
                (4, 28)
            };
            assert_eq!(check(&damaged), Some(wanted));
        }
    });
}

/// Every value of every byte of a few small jobs.
#[test]
fn every_byte_of_a_job_is_looked_at() {
    few_seeds(8, |seed| {
        let random = &mut Random::new(seed, "every byte");
        let jobs = std::iter::repeat_with(|| make::small_job(random));
        let small = jobs.map(|job| job.to_bytes()).find(|job| job.len() <= 450);
        let job = small.expect("a small job comes along");
        let mut run_on = 0;
        for place in 0..job.len() {
            for value in 0..=255 {
                let mut damaged = job.clone();
                damaged[place] = value;
                let refusal = check(&damaged);
                assert_eq!(refusal, first_fault(&damaged), "byte {place} is {value}");
                run_on += usize::from(refusal.is_none());
            }
        }
        assert!(run_on >= job.len(), "each byte's own value is sound");
    });
}

/// Row 11: "result buffer ... (place 0); lent table ... (place 1); other lent
/// working memory ... (place 2)".
#[test]
fn too_little_lent_is_refused_eleven() {
    let mut places = [0; 3];
    let whole = each_seed(JOBS, |seed| {
        let random = &mut Random::new(seed, "lent");
        let job = make::small_job(random);
        let needed = [
            result_room(&job.counts()),
            job.operations.len(),
            WORKING_MEMORY,
        ];
        for _ in 0..6 {
            let lent = needed.map(|least| lent_about(random, least));
            let short = (0..3).find(|place| lent[*place] < needed[*place]);
            let outcome = run(&job.to_bytes(), lent[0], lent[1], lent[2]);
            match short {
                Some(place) => {
                    let (number, at) = (11, place as u32);
                    assert_eq!(outcome, Outcome::Refused { number, place: at });
                    places[place] += 1;
                }
                None => assert!(matches!(outcome, Outcome::Done { .. })),
            }
        }
    });
    if whole {
        println!("refusal 11 by place: {places:?}");
        assert!(places.iter().all(|count| *count >= 2_000), "{places:?}");
    }
}

/// A length below, at or above what is needed.
fn lent_about(random: &mut Random, needed: usize) -> usize {
    match random.below(6) {
        0 => random.below(needed + 1),
        1 => needed.saturating_sub(1),
        2 => needed + random.below(100),
        _ => needed,
    }
}
