//! "Let a round be a list in which every operation unfinished at its start has at least one turn. In an accepted job with m operations and depth g,
//! m × (2^g + 4g + 6) rounds finish them all. This is about the steps under a list of any length, also one longer than a job can carry."
//!
//! By the tests' own implementation. `rounds_by_hand.rs` has the numbers and a hotel, `rounds_exact.rs` all rounds there are for small jobs,
//! `rounds_library.rs` the library, and `rounds_wrong.rs` machines that are wrong.

use chargefile_tests::bounds::{Held, DEPTHS};
use chargefile_tests::check;
use chargefile_tests::job::{Job, MAX_CAPACITY, MAX_TURNS};
use chargefile_tests::make;
use chargefile_tests::make_most_turns::to_the_longest;
use chargefile_tests::make_rounds::{contended_of_each, of_the_most_turns, stored};
use chargefile_tests::random::Random;
use chargefile_tests::rounds::{deal_rounds, enough, most_used, rounds_in, Dealer, Dealt, DEALERS};
use chargefile_tests::run::Run;
use chargefile_tests::seeds::{each_seed, few_seeds};
use chargefile_tests::tally::all_seen;

/// Random jobs of each depth and capacity.
const CONTENDED: u64 = 40;

/// Random jobs of any size.
const RANDOM: u64 = 400;

/// Random jobs with a list of their own.
const JOBS: u64 = 2_000;

/// What was met over all jobs.
#[derive(Debug, Default)]
struct Met {
    held: Held,
    waits: usize,
    idle: usize,
    splits: usize,
    retries: usize,
    /// Lists that no job can carry.
    too_long: usize,
}

/// Deals a job rounds until all are finished. That these are rounds, how many there are, and what each of them does is asked in there.
fn finishes(job: &Job, dealer: Dealer) -> Dealt {
    let dealt = deal_rounds(job, dealer, Run::deal)
        .unwrap_or_else(|wrong| panic!("{dealer:?}: {wrong:?} in {job:?}"));
    assert_eq!(dealt.run.unfinished().count(), 0);
    assert!(dealt.rounds <= most_used(job) && most_used(job) <= enough(job));
    assert!(dealt.rounds <= rounds_in(job, &dealt.turns), "{dealer:?}");
    dealt
}

/// The same with every dealer.
fn finishes_with_all(job: &Job, met: &mut Met) {
    for dealer in DEALERS {
        let dealt = finishes(job, dealer);
        let used = dealt.run.used();
        met.held.hold_all(job, &used);
        met.waits += dealt.run.waits;
        met.idle += dealt.run.idle;
        met.splits += dealt.run.shared.tally.splits;
        met.retries += dealt.run.shared.tally.retries;
        met.too_long += usize::from(dealt.turns.len() > MAX_TURNS);
    }
}

/// The jobs of the stored vectors and of the examples.
#[test]
fn stored_jobs() {
    let mut met = Met::default();
    for (name, job) in stored() {
        println!("{name}");
        finishes_with_all(&job, &mut met);
    }
    met.held.all_met(&[0, 1, 2, 3, 4, 5, 7, 8], 10);
    assert!(met.too_long >= 10, "{}", met.too_long);
}

/// Everybody at one page, which splits all the time, at every depth and every capacity.
#[test]
fn contended_jobs() {
    let mut met = Met::default();
    let whole = few_seeds(CONTENDED, |seed| {
        for job in contended_of_each(seed, "rounds") {
            assert_eq!(check(&job.to_bytes()), None);
            finishes_with_all(&job, &mut met);
        }
    });
    if whole {
        met.held.all_met(&DEPTHS, 100);
        all_seen([
            ("waiting turns", met.waits, 1_000_000),
            ("turns of finished operations", met.idle, 1_000_000),
            ("splits", met.splits, 10_000),
            ("retries", met.retries, 10_000),
        ]);
    }
}

/// Jobs of any size, many of them with more operations.
#[test]
fn random_jobs() {
    let mut met = Met::default();
    let whole = few_seeds(RANDOM, |seed| {
        let job = make::job(&mut Random::new(seed, "random rounds"));
        finishes_with_all(&job, &mut met);
    });
    if whole {
        met.held.all_met(&DEPTHS, 100);
        assert!(met.too_long >= 10, "{}", met.too_long);
    }
}

/// Jobs in which some list makes the operations use as many turns as they can.
#[test]
fn jobs_of_the_most_turns() {
    let mut met = Met::default();
    for capacity in [1, 3, MAX_CAPACITY] {
        for job in of_the_most_turns(capacity) {
            finishes_with_all(&job, &mut met);
        }
    }
    met.held.all_met(&DEPTHS, 10);
}

/// A list that no dealer here has made: the job's own, that one and turns behind it, or turns of any operations until all are finished.
fn some_list(random: &mut Random, job: &Job) -> Vec<usize> {
    let mut turns = job.turns.clone();
    match random.below(4) {
        0 => {}
        1 => turns = to_the_longest(random, job, turns),
        _ => {
            let mut run = Run::new(job);
            turns.clear();
            while run.unfinished().next().is_some() {
                turns.push(random.below(job.operations.len()));
                run.deal(turns[run.now]);
            }
        }
    }
    turns
}

/// However a list is cut into rounds: before the turn that finishes the last operation they are fewer than would be enough.
#[test]
fn lists_of_random_jobs() {
    let (mut finished, mut unfinished, mut most) = (0, 0, 0);
    let whole = each_seed(JOBS, |seed| {
        let random = &mut Random::new(seed, "lists of rounds");
        let job = make::job(random);
        let turns = some_list(random, &job);
        assert!(rounds_in(&job, &turns) <= most_used(&job));
        let mut run = Run::new(&job);
        run.deal_all(&turns);
        let all = run.unfinished().next().is_none();
        let last = run.rows.iter().filter_map(|row| row.ended_on).max();
        let cut = last.filter(|_| all).unwrap_or(turns.len());
        let rounds = rounds_in(&job, &turns[..cut]);
        assert!(rounds < most_used(&job) || job.operations.is_empty());
        finished += usize::from(all);
        unfinished += usize::from(!all);
        most = most.max(rounds);
    });
    if whole {
        all_seen([
            ("lists that finish all", finished, 1_000),
            ("lists that do not", unfinished, 100),
            ("most rounds of one that has not yet", most, 100),
        ]);
    }
}
