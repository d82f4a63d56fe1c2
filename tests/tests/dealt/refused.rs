//! Jobs to be refused: with a fault and without one, with turns and without, and too little lent, or enough.

use chargefile_tests::damage::{fault, scribble, NUMBERS};
use chargefile_tests::deal::{least_lent, Room};
use chargefile_tests::make;
use chargefile_tests::random::Random;
use chargefile_tests::seeds::each_seed;
use chargefile_tests::tally::Tally;
use chargefile_tests::Outcome;

/// How many random jobs, each with every kind of fault.
const JOBS: u64 = 1_500;

/// Puts every job to `told`, which says what it comes to. Each number of a refusal is met fifty times at least, and so is none.
pub fn each_is_told(name: &str, mut told: impl FnMut(&[u8], Room) -> Outcome) {
    let mut tally = Tally::default();
    let whole = each_seed(JOBS, |seed| {
        let random = &mut Random::new(seed, name);
        for (job, room) in damaged(random) {
            tally.count(match told(&job, room) {
                Outcome::Refused { number, .. } => number,
                Outcome::Done { .. } => 0,
            });
        }
    });
    if whole {
        tally.all_met(NUMBERS.into_iter().chain([21, 11, 0]), 50);
    }
}

/// A small job, for each number with a fault of this number, with any bytes changed, or as it is; and what is lent.
fn damaged(random: &mut Random) -> Vec<(Vec<u8>, Room)> {
    let mut job = make::small_job(random);
    if random.percent(60) {
        job.turns.clear();
    }
    let bytes = job.to_bytes();
    let given = NUMBERS.map(|number| {
        let given = match fault(random, &job, number) {
            Some(fault) if random.percent(50) => fault.apply(&bytes),
            _ if random.percent(40) => scribble(random, &bytes),
            _ => bytes.clone(),
        };
        let mut less = |length: usize| length.saturating_sub(random.one_of(&[0, 0, 0, 0, 1, 99]));
        let (out, rows, memory) = least_lent(&given, job.operations.len());
        let least = (less(out), less(rows), less(memory));
        (given, random.one_of(&[least, least, least, (0, 0, 0)]))
    });
    given.into()
}
