//! What is said of a dealt list, asked of any list; small jobs with the lists that are dealt for them, worked out by hand; and jobs to be refused.
// each test program uses its own part of these
#![allow(dead_code)]

pub mod refused;
pub mod scenes;

use chargefile_tests::job::Job;
use chargefile_tests::run::Run;
use chargefile_tests::turn::Turned;

/// What is wrong with a list, and at which turn it is seen.
#[derive(Clone, Copy, Debug, PartialEq, Eq)]
pub enum Wrong {
    /// The operation of this turn waits.
    Waits(usize),
    /// The operation of this turn is finished.
    Finished(usize),
    /// Behind this turn an operation is not named though it could use a turn: it is its moment in the round.
    PassedOver(usize, usize),
    /// The list ends before all are finished.
    Unfinished(usize),
}

/// The rounds of a list: each begins where the numbers no longer rise. Nobody is lost by that. A round does not begin with a number above all of the
/// round before: whoever was passed over there waits for an operation that holds its page. That operation cannot wait, so it had a turn in that round,
/// and was not finished by it; so it has one in the next too, and its number is the lower.
pub fn rounds(list: &[usize]) -> Vec<&[usize]> {
    list.chunk_by(|one, next| one < next).collect()
}

/// Holds a list to what is said, round by round and operation by operation: "each unfinished operation gets one turn, and one that would only wait at
/// that moment is passed over until the next round. It stops when all have finished." Gives back the run with all its turns dealt.
pub fn judged(job: &Job, list: &[usize]) -> Result<Run, Wrong> {
    let mut run = Run::new(job);
    for round in rounds(list) {
        let mut named = round.iter().copied().peekable();
        for operation in 0..job.operations.len() {
            if named.next_if_eq(&operation).is_none() {
                if run.can_use_a_turn(operation) {
                    return Err(Wrong::PassedOver(run.now, operation));
                }
                continue;
            }
            let now = run.now;
            match run.deal(operation) {
                Turned::Did => {}
                Turned::Waited => return Err(Wrong::Waits(now)),
                Turned::Idle => return Err(Wrong::Finished(now)),
            }
        }
        assert_eq!(named.next(), None, "a turn names no operation");
    }
    if run.unfinished().count() > 0 {
        return Err(Wrong::Unfinished(run.now));
    }
    Ok(run)
}
