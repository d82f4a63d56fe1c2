//! Every turn list there is for a job, of any length: all states that some list leads to, each visited once.

use std::collections::HashSet;

use chargefile_tests::bounds::within;
use chargefile_tests::job::Job;
use chargefile_tests::run::Run;

/// What all lists of a job come to.
pub struct Lists {
    /// The most turns that each operation has used in any state.
    pub most: Vec<usize>,
    /// How many states there are.
    pub states: usize,
}

/// Goes through all states that turns lead to from the start of a job. Each count is held to the bounds as it comes up: were one without a bound, there
/// would be no end of states.
pub fn every_list(job: &Job) -> Lists {
    let start = Run::new(job);
    let mut seen = HashSet::from([(start.state(), start.used())]);
    let mut most = vec![0; job.operations.len()];
    let mut open = vec![start];
    while let Some(run) = open.pop() {
        for (operation, most) in most.iter_mut().enumerate() {
            let next = run.after(operation, Run::deal);
            if seen.insert((next.state(), next.used())) {
                let used = next.rows[operation].used;
                within(job.operations[operation].kind, job.file.depth, used);
                *most = used.max(*most);
                open.push(next);
            }
        }
    }
    Lists {
        most,
        states: seen.len(),
    }
}
