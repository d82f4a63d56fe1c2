//! Every sequence of rounds there is for a small job: the most that one of them needs.

use std::collections::HashMap;

use chargefile_tests::job::Job;
use chargefile_tests::rounds::Deal;
use chargefile_tests::run::Run;

/// The most rounds that are needed.
#[derive(Clone, Debug, PartialEq, Eq)]
pub struct Most {
    /// Until all operations are finished, if each round names every unfinished one once, in any order.
    pub once: usize,
    /// The same if it may name them as often as it likes.
    pub often: usize,
    /// Until each of the operations is finished, if it may.
    pub each: Vec<usize>,
    pub states: usize,
}

/// Goes through all states that turns lead to from the start of a job. There is no such number if some list leads to a state in which somebody is
/// unfinished and nobody can use a turn: from there on rounds change nothing.
pub fn most_rounds(job: &Job, deal: Deal) -> Option<Most> {
    let states = States::of(job, deal)?;
    let all = states.unfinished[0];
    let until_finished = |operation: usize| Longest::new(&states, true, 1 << operation).from(0);
    Some(Most {
        once: Longest::new(&states, false, all).from(0),
        often: Longest::new(&states, true, all).from(0),
        each: (0..job.operations.len()).map(until_finished).collect(),
        states: states.unfinished.len(),
    })
}

/// All states, the start first. A set of operations is a number, with a bit for each.
struct States {
    unfinished: Vec<usize>,
    /// By state and operation: the state after its turn. It is the same if the turn waits, or the operation is finished.
    after: Vec<Vec<usize>>,
}

impl States {
    fn of(job: &Job, deal: Deal) -> Option<States> {
        let operations = 0..job.operations.len();
        let start = Run::new(job);
        let mut numbers = HashMap::from([(start.state(), 0)]);
        let mut open = vec![start];
        let (mut unfinished, mut after) = (Vec::new(), Vec::new());
        // those behind the last that was looked at are still open
        while let Some(run) = open.get(after.len()).cloned() {
            let mut nexts = Vec::new();
            for operation in operations.clone() {
                let next = run.after(operation, deal);
                let new = numbers.len();
                let number = *numbers.entry(next.state()).or_insert(new);
                if number == new {
                    open.push(next);
                }
                nexts.push(number);
            }
            let left = run.unfinished().map(|operation| 1 << operation).sum();
            let stuck = nexts.iter().all(|next| *next == after.len());
            if stuck && left != 0 {
                return None;
            }
            unfinished.push(left);
            after.push(nexts);
        }
        Some(States { unfinished, after })
    }
}

/// The most rounds from each state on, until these operations are finished.
struct Longest<'a> {
    states: &'a States,
    often: bool,
    until: usize,
    /// By state and the operations that are still to be named in the round under way.
    known: HashMap<(usize, usize), usize>,
}

impl Longest<'_> {
    fn new(states: &States, often: bool, until: usize) -> Longest<'_> {
        Longest {
            states,
            often,
            until,
            known: HashMap::new(),
        }
    }

    /// The most rounds that begin in this state or later.
    fn from(&mut self, state: usize) -> usize {
        let unfinished = self.states.unfinished[state];
        if unfinished & self.until == 0 {
            return 0;
        }
        1 + self.within(state, unfinished)
    }

    /// The most that begin after a round under way in which these are still to be named.
    fn within(&mut self, state: usize, due: usize) -> usize {
        if let Some(known) = self.known.get(&(state, due)) {
            return *known;
        }
        let mut most = if due == 0 { self.from(state) } else { 0 };
        for operation in 0..self.states.after[state].len() {
            let next = self.states.after[state][operation];
            let is_due = due >> operation & 1 == 1;
            if is_due || (self.often && next != state) {
                most = most.max(self.within(next, due & !(1 << operation)));
            }
        }
        self.known.insert((state, due), most);
        most
    }
}
