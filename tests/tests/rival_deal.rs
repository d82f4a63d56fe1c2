//! The dealing of the tuned rival (tests/rival) against the tests' own: what it writes, what it refuses, and what is lent afterwards, on every vector, on
//! jobs made by hand, random jobs, contended jobs and damaged ones.

mod dealt;

use chargefile_tests::deal::{least_lent, Room};
use chargefile_tests::examples::example;
use chargefile_tests::job::{Job, MAX_CAPACITY, MAX_OPERATIONS};
use chargefile_tests::make;
use chargefile_tests::make_rounds::{
    contended_by, contended_of_each, hotel_of_forty, of_the_most_turns, one_for_each_entry, stored,
};
use chargefile_tests::random::Random;
use chargefile_tests::seeds::{each_seed, few_seeds};
use chargefile_tests::vectors;
use chargefile_tests::{deal, Outcome};
use dealt::refused;
use dealt::scenes::scenes;
use rival::Row;

const JOBS: u64 = 6_000;

/// A row that no call leaves behind.
fn other_row() -> Row {
    Row {
        charge: 0x5A5A_5A5A,
        used: 0x5A5A,
        page: 0x5A,
        ..Row::default()
    }
}

/// What the rival's dealing comes to with so much lent: a refusal has written nothing, and else rows and memory are zero and the bytes past the output keep
/// their values. The tests' own comes to the same.
fn agree(job: &[u8], room: Room) -> Outcome {
    let mut rows = vec![other_row(); room.1];
    let mut memory = vec![0xC3; room.2];
    let told = Outcome::written(room.0, |out| rival::deal(job, out, &mut rows, &mut memory));
    let (row, byte) = match told {
        Outcome::Done { .. } => (Row::default(), 0),
        Outcome::Refused { .. } => (other_row(), 0xC3),
    };
    assert!(rows.iter().all(|left| *left == row), "rows afterwards");
    assert!(memory.iter().all(|left| *left == byte), "memory afterwards");
    assert!(told == deal(job, room), "they differ");
    told
}

/// The list that the rival deals, lent no more than it must be.
fn dealt(job: &Job) -> Vec<usize> {
    let bytes = job.to_bytes();
    match agree(&bytes, least_lent(&bytes, job.operations.len())) {
        Outcome::Done { result } => Job::from_bytes(&result).turns,
        refused => panic!("a sound job without turns is dealt some: {refused:?}"),
    }
}

#[test]
fn every_vector() {
    for vector in vectors::to_be_dealt() {
        let outcome = agree(&vector.job, vector.room);
        assert!(outcome == vector.wanted, "{}", vector.name);
    }
}

#[test]
fn every_list_by_hand() {
    for scene in scenes() {
        assert_eq!(dealt(&scene.job), scene.list, "{}", scene.name);
    }
}

#[test]
fn random_jobs() {
    let mut turns = 0;
    let whole = each_seed(JOBS, |seed| {
        let random = &mut Random::new(seed, "rival deal");
        let job = make::mostly_small_job_without_turns(random, seed);
        turns += dealt(&job).len();
    });
    if whole {
        assert!(turns > 50_000, "{turns} turns");
    }
}

/// Many wait for one page, are woken by those below them and by those above, and find their page taken by another.
#[test]
fn contended_jobs() {
    let mut turns = dealt(&hotel_of_forty()).len();
    few_seeds(8, |seed| {
        for job in contended_of_each(seed, "rival deal") {
            turns += dealt(&job).len();
        }
        let random = &mut Random::new(seed, "rival deal, many");
        for depth in 0..=8 {
            let capacity = random.between(1, MAX_CAPACITY);
            let count = random.between(10, MAX_OPERATIONS);
            turns += dealt(&contended_by(random, depth, capacity, count)).len();
        }
    });
    assert!(turns > 10_000, "{turns} turns");
}

#[test]
fn stored_jobs_and_those_of_the_most_turns() {
    for (name, job) in stored() {
        println!("{name}");
        dealt(&job.with_list(&[]));
    }
    for job in of_the_most_turns(1) {
        assert!(!dealt(&job.with_list(&[])).is_empty());
    }
}

#[test]
fn the_largest_jobs() {
    let lists = (1..=MAX_CAPACITY).map(|capacity| dealt(&one_for_each_entry(capacity)).len());
    assert_eq!(lists.max(), Some(4_817));
    let month = example("month").job.with_list(&[]);
    assert_eq!(dealt(&month).len(), 1_795);
}

/// 63, 64, 65 operations and so on: where the sets of bits go from one word to the next. All wait for one page.
#[test]
fn every_number_of_operations() {
    for count in 0..=MAX_OPERATIONS {
        let random = &mut Random::new(count as u64, "rival words");
        let job = contended_by(random, 1, 2, count);
        assert!(dealt(&job).len() >= 2 * count);
    }
}

/// The job's own refusal, then 21, then 11 with its places in their order.
#[test]
fn damaged_jobs() {
    refused::each_is_told("rival deal damage", agree);
}
