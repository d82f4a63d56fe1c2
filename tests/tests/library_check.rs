//! The library's check of a job against the tests' own implementation: every vector, and many damaged jobs.

mod linked;

use chargefile_tests::check;
use chargefile_tests::damage::{fault, scribble, Fault, NUMBERS};
use chargefile_tests::make;
use chargefile_tests::random::Random;
use chargefile_tests::seeds::each_seed;
use chargefile_tests::tally::Tally;
use chargefile_tests::vectors;
use linked::CallOutcome;

const JOBS: u64 = 8_000;

/// Both say the same of a job; an accepted one has place 0, and a check has no output.
fn agree(job: &[u8]) -> Option<(u32, u32)> {
    let wanted = check(job);
    let (refusal, place) = wanted.unwrap_or((0, 0));
    assert_eq!(
        linked::check_only(job),
        CallOutcome {
            refusal: u64::from(refusal),
            place: u64::from(place),
            length: 0
        }
    );
    wanted
}

/// What is stored is what both say.
#[test]
fn every_vector() {
    let mut tally = Tally::default();
    for vector in vectors::all() {
        let wanted = vector.checked();
        assert_eq!(agree(&vector.job), wanted, "{}", vector.name);
        tally.count(wanted.map_or(0, |(number, _)| number));
    }
    tally.all_met(NUMBERS.into_iter().chain([0]), 5);
}

/// A stored file to be tidied is checked as a job; what is stored is what tidying it tells.
#[test]
fn every_file_to_be_tidied() {
    let mut tally = Tally::default();
    for vector in vectors::to_be_tidied() {
        tally.count(agree(&vector.file).map_or(0, |(number, _)| number));
    }
    tally.all_met(NUMBERS.into_iter().chain([0]), 1);
}

/// So is a stored job to be dealt turns.
#[test]
fn every_job_to_be_dealt_turns() {
    let mut tally = Tally::default();
    for vector in vectors::to_be_dealt() {
        tally.count(agree(&vector.job).map_or(0, |(number, _)| number));
    }
    tally.all_met(NUMBERS.into_iter().chain([0]), 1);
}

#[test]
fn damaged_jobs() {
    let mut tally = Tally::default();
    let whole = each_seed(JOBS, |seed| {
        let random = &mut Random::new(seed, "library check");
        let job = make::small_job(random);
        let bytes = job.to_bytes();
        assert_eq!(agree(&bytes), None, "an undamaged job");
        for number in NUMBERS {
            if let Some(fault) = fault(random, &job, number) {
                let told = agree(&fault.apply(&bytes));
                assert_eq!(told, Some((fault.number, fault.place)));
            }
            let scribbled = scribble(random, &bytes);
            tally.count(agree(&scribbled).map_or(0, |(number, _)| number));
        }
    });
    if whole {
        assert!(tally.total() >= 50_000);
        tally.all_met(NUMBERS.into_iter().chain([0]), 300);
    }
}

/// Two faults at once: both say the same, and where the faults stand beside each other, the one that is checked first.
#[test]
fn two_faults() {
    let mut tally = Tally::default();
    let whole = each_seed(JOBS, |seed| {
        let random = &mut Random::new(seed, "library check of two");
        let job = make::small_job(random);
        let bytes = job.to_bytes();
        for first in NUMBERS {
            let second = random.one_of(&NUMBERS);
            let one = fault(random, &job, first);
            let other = fault(random, &job, second);
            if let (Some(one), Some(other)) = (one, other) {
                let told = agree(&one.apply(&other.apply(&bytes)));
                if one.stands_beside(&other) {
                    let first = Fault::first_of(&one, &other);
                    assert_eq!(told, Some((first.number, first.place)));
                }
                tally.count(told.map_or(0, |(number, _)| number));
            }
        }
    });
    if whole {
        tally.all_met(NUMBERS, 300);
    }
}

#[test]
fn every_length_of_one_job() {
    let random = &mut Random::new(1, "lengths");
    let bytes = make::small_job(random).to_bytes();
    for length in 0..bytes.len() {
        assert!(agree(&bytes[..length]).is_some());
    }
    let mut longer = bytes.clone();
    longer.push(0);
    assert_eq!(agree(&longer), Some((4, 28)));
}
