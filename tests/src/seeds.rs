//! Seeds of the random tests, and how to repeat one.
//!
//! `CHARGEFILE_SEED=<n>` runs the one seed n; `CHARGEFILE_JOBS=<n>` runs the
//! seeds from 0 to n - 1 instead of the test's own number of them.

use std::env;
use std::panic::{catch_unwind, resume_unwind, AssertUnwindSafe};

/// Runs a test for each seed. A failure prints its seed before it goes on.
/// Gives back whether at least the test's own number of seeds was run, for
/// only then can a test ask that the rare cases were reached.
pub fn each_seed(own_number: u64, test: impl FnMut(u64)) -> bool {
    let jobs = number("CHARGEFILE_JOBS").unwrap_or(own_number);
    seeds(jobs, test) && jobs >= own_number
}

/// The same for a test that takes long over a seed: it keeps its own number of
/// seeds, so that many jobs can be asked for without waiting for this one.
pub fn few_seeds(own_number: u64, test: impl FnMut(u64)) -> bool {
    seeds(own_number, test)
}

/// Runs the seeds below `jobs`, or the one seed asked for; gives back whether
/// it was all of them.
fn seeds(jobs: u64, mut test: impl FnMut(u64)) -> bool {
    assert!(jobs > 0, "a test of no seeds would always pass");
    let one = number("CHARGEFILE_SEED");
    for seed in one.map_or(0..jobs, |seed| seed..seed + 1) {
        if let Err(failure) = catch_unwind(AssertUnwindSafe(|| test(seed))) {
            eprintln!("seed {seed} failed; repeat it with CHARGEFILE_SEED={seed}");
            resume_unwind(failure);
        }
    }
    one.is_none()
}

fn number(name: &str) -> Option<u64> {
    let text = env::var(name).ok()?;
    Some(text.parse().unwrap_or_else(|_| panic!("{name}={text}")))
}
