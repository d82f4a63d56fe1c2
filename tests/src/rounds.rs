//! Rounds of turns ("Everyone gets done"): how many finish every operation, and
//! dealers that try to make it take many.
//!
//! Why so many are enough: while an operation is unfinished, one of the unfinished
//! can use a turn. In a round it has one. If nobody before it in the round used a
//! turn, nothing has changed, and it uses its own. So a round uses a turn at least,
//! and the turns that all operations can use together are limited.

use std::collections::BTreeSet;

use crate::bounds::{reached, said};
use crate::job::{Job, Kind, Operation};
use crate::random::Random;
use crate::run::{Row, Run};
use crate::turn::{Stage, Turned};

/// "In an accepted job with m operations and depth g, m × (2^g + 4g + 6) rounds
/// finish them all."
pub fn enough(job: &Job) -> usize {
    job.operations.len() * said(Kind::Insert, job.file.depth)
}

/// The turns that the operations of a job can use together, if each uses as many
/// as some list makes it use. So many rounds must be enough too.
pub fn most_used(job: &Job) -> usize {
    let used = |operation: &Operation| reached(operation.kind, job.file.depth);
    job.operations.iter().map(used).sum()
}

/// So many rounds, every operation in turn. "No search uses more than 2g + 3 turns",
/// and none waits: after so many rounds the searches are finished, and need not be
/// named.
pub fn sure_rounds(job: &Job) -> Vec<Vec<usize>> {
    let all: Vec<usize> = (0..job.operations.len()).collect();
    let mut others = all.clone();
    others.retain(|operation| job.operations[*operation].kind != Kind::Search);
    let searching = said(Kind::Search, job.file.depth);
    let round = |number| if number < searching { &all } else { &others };
    (0..most_used(job)).map(|n| round(n).clone()).collect()
}

/// "Let a round be a list in which every operation unfinished at its start has at
/// least one turn."
pub fn is_round(run: &Run, list: &[usize]) -> bool {
    run.unfinished().all(|operation| list.contains(&operation))
}

/// The most rounds that a list can be cut into, up to where all are finished. Each
/// ends as soon as it can. No other cut has more: of two rounds, the one that begins
/// first need not end later, since whoever is finished in between has had a turn.
pub fn rounds_in(job: &Job, turns: &[usize]) -> usize {
    let (mut run, mut rounds) = (Run::new(job), 0);
    let mut due: BTreeSet<usize> = run.unfinished().collect();
    for &operation in turns {
        if due.is_empty() {
            break;
        }
        run.deal(operation);
        due.remove(&operation);
        if due.is_empty() {
            rounds += 1;
            due = run.unfinished().collect();
        }
    }
    rounds
}

/// How a turn is dealt: by [`Run::deal`], or by a machine that is wrong on purpose.
pub type Deal = fn(&mut Run, usize) -> Turned;

/// Who makes the next round, from the state that the last one has left.
#[derive(Clone, Copy, Debug, PartialEq, Eq)]
pub enum Dealer {
    /// Each unfinished operation once, by rising number, by falling, in an order drawn
    /// by lot.
    Rising,
    Falling,
    AnyOrder,
    /// Each unfinished one once: first those that would wait, before whoever has
    /// their page can let go of it.
    WaitingFirst,
    /// Each unfinished one once: those whose next step is a lock, then the others,
    /// and last those that are about to unlock.
    LocksFirst,
    /// Those that would wait and those that are finished, over and over, then the
    /// others once.
    Wasteful,
    /// Each unfinished one once. At each place one that waits there, if there is
    /// one; else one whose turn frees nobody.
    Slowest,
    /// One gets ahead by some turns; then each unfinished one once.
    OneAhead,
    /// Every operation, finished or not, by rising number, by falling.
    Everyone,
    EveryoneFalling,
}

pub const DEALERS: [Dealer; 10] = [
    Dealer::Rising,
    Dealer::Falling,
    Dealer::AnyOrder,
    Dealer::WaitingFirst,
    Dealer::LocksFirst,
    Dealer::Wasteful,
    Dealer::Slowest,
    Dealer::OneAhead,
    Dealer::Everyone,
    Dealer::EveryoneFalling,
];

/// How often a wasteful round names an operation that cannot use a turn.
const OVER_AND_OVER: usize = 4;

/// By how many turns one gets ahead.
const AHEAD: usize = 7;

impl Dealer {
    /// The round that this dealer makes, the first being number 0.
    pub fn next_round(self, run: &Run, number: usize, deal: Deal) -> Vec<usize> {
        let mut unfinished: Vec<usize> = run.unfinished().collect();
        let everyone = 0..run.rows.len();
        match self {
            Dealer::Rising => {}
            Dealer::Falling => unfinished.reverse(),
            Dealer::AnyOrder => Random::new(number as u64, "rounds").shuffle(&mut unfinished),
            Dealer::WaitingFirst => unfinished.sort_by_key(|i| run.can_use_a_turn(*i)),
            Dealer::LocksFirst => unfinished.sort_by_key(|i| when_to_lock(run, *i)),
            Dealer::Wasteful => return wasteful(run),
            Dealer::Slowest => return slowest(run, unfinished, deal),
            Dealer::OneAhead => {
                let ahead = unfinished.iter().find(|i| run.can_use_a_turn(**i));
                let ahead = ahead.map_or(Vec::new(), |i| vec![*i; AHEAD]);
                unfinished.splice(0..0, ahead);
            }
            Dealer::Everyone => return everyone.collect(),
            Dealer::EveryoneFalling => return everyone.rev().collect(),
        }
        unfinished
    }
}

/// Where an operation stands in a round that has the locks first.
fn when_to_lock(run: &Run, operation: usize) -> usize {
    match &run.rows[operation].progress.stage {
        Stage::Lock(_) => 0,
        stage if unlocks_next(stage) => 2,
        _ => 1,
    }
}

/// Whether the next step unlocks a page: that of a retry, the last step of all, or
/// the one for all new pages, with two behind it. Nothing else that is decided has
/// three steps left.
pub fn unlocks_next(stage: &Stage) -> bool {
    match stage {
        Stage::LetGo { .. } => true,
        Stage::CarryOut(steps) => matches!(steps.len(), 1 | 3),
        _ => false,
    }
}

fn wasteful(run: &Run) -> Vec<usize> {
    let (useful, useless): (Vec<usize>, Vec<usize>) =
        (0..run.rows.len()).partition(|i| run.can_use_a_turn(*i));
    let mut round = useless.repeat(OVER_AND_OVER);
    round.extend(useful);
    round
}

fn slowest(run: &Run, mut due: Vec<usize>, deal: Deal) -> Vec<usize> {
    let (mut run, mut round) = (run.clone(), Vec::new());
    while !due.is_empty() {
        let waits = |i: &usize| !run.can_use_a_turn(*i);
        let frees_nobody = |i: &usize| !frees_somebody(&run, *i, deal);
        let place = due.iter().position(waits);
        let place = place.or_else(|| due.iter().position(frees_nobody));
        let next = due.remove(place.unwrap_or(0));
        deal(&mut run, next);
        round.push(next);
    }
    round
}

/// Whether somebody waits who can use a turn once this operation has had its own.
fn frees_somebody(run: &Run, operation: usize, deal: Deal) -> bool {
    if !unlocks_next(&run.rows[operation].progress.stage) {
        return false;
    }
    let mut ahead = run.clone();
    deal(&mut ahead, operation);
    let freed = |i: usize| !run.can_use_a_turn(i) && ahead.can_use_a_turn(i);
    run.unfinished().any(freed)
}

/// What is wrong where rounds do not come to what is said of them, and how many had
/// been dealt.
#[derive(Clone, Copy, Debug, PartialEq, Eq)]
pub enum Wrong {
    /// Somebody was unfinished at the start of the last one, and nobody used a turn.
    NobodyUsedATurn(usize),
    /// An operation was finished before the last one, and is not, or has used a turn.
    Undone(usize),
    /// A search is unfinished after 2g + 3 of them. It never waits, so it uses a turn
    /// in each.
    SearchUnfinished(usize),
    /// More were needed than the turns that all can use together.
    MoreThanUsed(usize),
    /// Somebody is unfinished, and they were to be enough.
    NotEnough(usize),
}

/// What dealing round after round came to.
#[derive(Clone, Debug)]
pub struct Dealt {
    /// The run, with all operations finished.
    pub run: Run,
    /// The whole list.
    pub turns: Vec<usize>,
    pub rounds: usize,
}

impl Dealt {
    /// The number of the last turn that did something: it finished the last
    /// operation.
    pub fn last_needed(&self) -> Option<usize> {
        let ended = |row: &Row| row.ended_on.expect("all are finished");
        self.run.rows.iter().map(ended).max()
    }
}

/// Deals round after round until all operations are finished, and asks after each
/// whether it did what a round must do.
pub fn deal_rounds(job: &Job, dealer: Dealer, deal: Deal) -> Result<Dealt, Wrong> {
    let (mut run, mut turns, mut rounds) = (Run::new(job), Vec::new(), 0);
    while run.unfinished().next().is_some() {
        if rounds == enough(job) {
            return Err(Wrong::NotEnough(rounds));
        }
        let round = dealer.next_round(&run, rounds, deal);
        assert!(is_round(&run, &round), "{dealer:?} leaves one out");
        let before = counts(&run);
        for &operation in &round {
            deal(&mut run, operation);
        }
        turns.extend(round);
        rounds += 1;
        does_its_part(job, &before, &run, rounds)?;
    }
    if rounds > most_used(job) {
        return Err(Wrong::MoreThanUsed(rounds));
    }
    Ok(Dealt { run, turns, rounds })
}

/// Of each operation its turns used, and whether it is finished.
fn counts(run: &Run) -> Vec<(usize, bool)> {
    let count = |row: &Row| (row.used, row.progress.finished());
    run.rows.iter().map(count).collect()
}

/// Holds the last round to what is said of one, given the counts before it.
fn does_its_part(
    job: &Job,
    before: &[(usize, bool)],
    run: &Run,
    rounds: usize,
) -> Result<(), Wrong> {
    let after = counts(run);
    if before
        .iter()
        .zip(&after)
        .any(|(was, is)| was.1 && was != is)
    {
        return Err(Wrong::Undone(rounds));
    }
    if before.iter().zip(&after).all(|(was, is)| was.0 == is.0) {
        return Err(Wrong::NobodyUsedATurn(rounds));
    }
    let is_search = |i: &usize| job.operations[*i].kind == Kind::Search;
    let late = rounds >= said(Kind::Search, job.file.depth);
    if late && run.unfinished().any(|i| is_search(&i)) {
        return Err(Wrong::SearchUnfinished(rounds));
    }
    Ok(())
}
