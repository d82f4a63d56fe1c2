//! Turns dealt for the site ("Turns dealt for the site").
//!
//! It is done as it is said: round after round, each operation is asked at its
//! own moment whether it can use a turn, and gets one if it can.

use crate::check::{check, WORKING_MEMORY};
use crate::job::Job;
use crate::run::{Outcome, Run};

/// "The list never has more than 10,238 turns."
pub const MOST_TURNS: usize = 10_238;

/// "The job's length and 20,476 bytes more": room for so many turns, of two bytes
/// each.
pub const MORE: usize = 20_476;

/// The first byte of the turn count, where 21 is told.
const TURN_COUNT_PLACE: u32 = 10;

/// What is lent: bytes of the output, rows, and bytes of other working memory.
pub type Room = (usize, usize, usize);

/// Writes a job with a list of turns, given the lengths of what is lent.
pub fn deal(job: &[u8], room: Room) -> Outcome {
    match dealt(job, room) {
        Ok(result) => Outcome::Done { result },
        Err((number, place)) => Outcome::Refused { number, place },
    }
}

/// The least that dealing may be lent for this job.
pub fn least_lent(job: &[u8], operations: usize) -> Room {
    (job.len() + MORE, operations, WORKING_MEMORY)
}

/// How many turns m operations at depth g can use together, under any list: no more
/// than that has a list of which every turn is used, and at the limits it is
/// [`MOST_TURNS`].
///
/// An operation uses six turns at most, and three more each time that its entry has
/// changed, which is g times at most. The rest is for splits. There are 2^g - 1 new
/// pages at most, each is written once, and each split has a turn that unlocks its
/// own. And each of the 2^g entries is changed g times at most.
pub fn at_most(operations: usize, depth: u32) -> usize {
    let (g, entries) = (depth as usize, 1 << depth);
    operations * (6 + 3 * g) + 2 * (entries - 1) + g * entries
}

/// The job's bytes with a list, or number and place of a refusal: "21 (turns
/// present, at their count) after the job's own refusals, then 11, where the
/// buffer is under the job's length and 20,476 bytes more (place 0), or the table
/// or working memory is under what a run needs (places 1 and 2)".
fn dealt(bytes: &[u8], room: Room) -> Result<Vec<u8>, (u32, u32)> {
    if let Some(own) = check(bytes) {
        return Err(own);
    }
    let mut job = Job::from_bytes(bytes);
    if !job.turns.is_empty() {
        return Err((21, TURN_COUNT_PLACE));
    }
    let (out, rows, memory) = least_lent(bytes, job.operations.len());
    let short = [room.0 < out, room.1 < rows, room.2 < memory];
    if let Some(place) = short.iter().position(|short| *short) {
        return Err((11, place as u32));
    }
    job.turns = list(&job);
    Ok(job.to_bytes())
}

/// The list, which is made from the job's file and operations alone: "it stops
/// when all have finished, and a job without operations gets an empty list".
pub fn list(job: &Job) -> Vec<usize> {
    let (mut run, mut turns) = (Run::new(job), Vec::new());
    while run.unfinished().next().is_some() {
        let before = turns.len();
        deal_round(&mut run, &mut turns);
        assert!(turns.len() > before, "nobody can use a turn");
    }
    turns
}

/// One round, "by rising operation number: each unfinished operation gets one turn,
/// and one that would only wait at that moment is passed over until the next
/// round". Its moment comes after the turns of this round that went before.
fn deal_round(run: &mut Run, turns: &mut Vec<usize>) {
    for operation in 0..run.rows.len() {
        if run.can_use_a_turn(operation) {
            run.deal(operation);
            turns.push(operation);
        }
    }
}
