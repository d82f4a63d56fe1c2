//! Random turn lists in which operations get in each other's way.
//!
//! A list is made piece by piece while the job runs beside it. That way the
//! pieces go mostly to a few unfinished operations at a time; drawn blindly,
//! most turns would go to operations that are finished, or wait for a page
//! whose holder gets no turn.

use crate::job::{Job, Kind, MAX_TURNS};
use crate::random::Random;
use crate::run::Run;
use crate::turn::Stage;

/// A turn list for a job; with no operations, no turn is allowed.
pub fn turns(random: &mut Random, job: &Job) -> Vec<usize> {
    let operations = job.operations.len();
    if operations == 0 {
        return Vec::new();
    }
    let (mut run, mut turns) = (Run::new(job), Vec::new());
    let length = length(random, operations);
    let width = random.between(1, operations.min(12));
    while turns.len() < length {
        let special = match random.below(100) {
            0..=14 => late_readers(random, job, &run),
            15..=49 => slow_writer(random, job, &run),
            _ => None,
        };
        let piece = special.unwrap_or_else(|| {
            let window = window(random, &run, width);
            piece(random, &window)
        });
        run.deal_all(&piece);
        turns.extend(piece);
        // When all is done, only turns that do nothing are left to deal.
        if run.unfinished().next().is_none() && random.percent(30) {
            break;
        }
    }
    turns.truncate(length);
    turns
}

/// At most how many turns: none, a few (a list that stops anywhere), or enough
/// for most operations to finish.
fn length(random: &mut Random, operations: usize) -> usize {
    match random.below(20) {
        0 => 0,
        1..=5 => random.below(12 * operations + 8).min(MAX_TURNS),
        _ => MAX_TURNS,
    }
}

/// The operations that the next piece draws from: unfinished ones, with the
/// first always among the next few, so that no lock is held for ever; now and
/// then just any, finished or not.
fn window(random: &mut Random, run: &Run, width: usize) -> Vec<usize> {
    let unfinished: Vec<usize> = run.unfinished().take(2 * width).collect();
    if unfinished.is_empty() || random.percent(5) {
        return vec![random.below(run.rows.len())];
    }
    let first = if random.percent(70) {
        0
    } else {
        random.below(unfinished.len())
    };
    unfinished.into_iter().skip(first).take(width).collect()
}

/// The searches begin, an insert goes on for a while, the searches go on: if
/// the insert was in the middle of a split just then, they read an old page
/// that their entries have left.
fn late_readers(random: &mut Random, job: &Job, run: &Run) -> Option<Vec<usize>> {
    let searches = unfinished(job, run, Kind::Search);
    let inserts = unfinished(job, run, Kind::Insert);
    if searches.is_empty() || inserts.is_empty() {
        return None;
    }
    let under_way = |i: &usize| run.rows[*i].first_turn.is_some();
    let goes_on = |i: &usize| under_way(i) && run.can_use_a_turn(*i);
    let begun = inserts.iter().copied().find(goes_on);
    let writer = begun.unwrap_or_else(|| random.one_of(&inserts));
    let begin = searches.iter().copied().filter(|i| !under_way(i));
    let mut piece: Vec<usize> = begin.collect();
    if let (Some(left), true) = (steps_left(run, writer), random.percent(60)) {
        // Up to where only the old page is left to write and unlock.
        piece.extend(vec![writer; left.saturating_sub(2)]);
        return Some(piece);
    }
    for _ in 0..random.between(1, 3) {
        piece.extend(vec![writer; random.between(1, 8)]);
        let late = searches.iter().copied().filter(|_| random.percent(50));
        piece.extend(late);
    }
    Some(piece)
}

/// While an insert has only its old page left to write, the deletes go ahead
/// on the new pages, and then the searches read the old page: they find what
/// the file no longer holds.
fn slow_writer(random: &mut Random, job: &Job, run: &Run) -> Option<Vec<usize>> {
    let inserts = unfinished(job, run, Kind::Insert);
    inserts.iter().find(|i| steps_left(run, **i) == Some(2))?;
    let mut deletes = unfinished(job, run, Kind::Delete);
    random.shuffle(&mut deletes);
    let mut piece = Vec::new();
    for delete in deletes.into_iter().take(10) {
        piece.extend(vec![delete; random.between(5, 9)]);
    }
    piece.extend(unfinished(job, run, Kind::Search));
    Some(piece)
}

/// The first unfinished operations of a kind.
fn unfinished(job: &Job, run: &Run, kind: Kind) -> Vec<usize> {
    let mine = |i: &usize| job.operations[*i].kind == kind;
    run.unfinished().filter(mine).take(40).collect()
}

/// How many steps an operation has left, once it has decided.
fn steps_left(run: &Run, operation: usize) -> Option<usize> {
    match &run.rows[operation].progress.stage {
        Stage::CarryOut(steps) => Some(steps.len()),
        _ => None,
    }
}

fn piece(random: &mut Random, window: &[usize]) -> Vec<usize> {
    let (one, other) = (random.one_of(window), random.one_of(window));
    match random.below(7) {
        // Any operation of the window, turn by turn.
        0 | 1 => (0..random.between(1, 30))
            .map(|_| random.one_of(window))
            .collect(),
        // A burst of one operation, often past its end: turns of a finished
        // operation.
        2 => vec![one; random.between(1, 14)],
        // All in step, so that many wait for the same page.
        3 => window.repeat(random.between(1, 6)),
        // Two in turn.
        4 => [one, other].repeat(random.between(1, 10)),
        // One begins, the other overtakes it, the first goes on with what it
        // read: entries changed meanwhile, pages read too late.
        5 => {
            let ahead = if random.percent(80) { 24 } else { 150 };
            let mut piece = vec![one; random.between(1, 3)];
            piece.extend(vec![other; random.between(5, ahead)]);
            piece.extend(vec![one; random.between(1, 10)]);
            piece
        }
        // All begin, then each goes on alone.
        _ => {
            let mut piece = window.to_vec();
            for &each in window {
                piece.extend(vec![each; random.between(3, 16)]);
            }
            piece
        }
    }
}
