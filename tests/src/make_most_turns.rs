//! Jobs whose operations use as many turns as they can.
//!
//! An operation that reads its entry goes on with the page named there. If an
//! insert splits that page before it goes on, and its own calls move to the new
//! page, it comes to a page that its entry has left, and has to go for another. So
//! the lists here let an insert split the page each time the others have read
//! their entries. The calls are chosen by their pseudo keys: the new page gets bit
//! 1, so what is to be misled g times begins with g bits that are 1.

use crate::by_hand::{delete, insert, search};
use crate::examples_parts::filled;
use crate::file::ChargeFile;
use crate::job::{Job, Operation, MAX_TURNS};
use crate::key;
use crate::random::Random;
use crate::run::Run;
use crate::turn::{Stage, Turned};

/// A job with g inserts that split one page after another, and then so many
/// searches, a delete for each of the c records of the file, and an insert. The
/// entry of these last changes g times, each time when they have just read it.
/// The searches find nothing, the deletes their record, and the insert the room
/// that the deletes have made.
pub fn misled(depth: u32, capacity: usize, searches: usize) -> Job {
    let calls = calls_with((1 << depth) - 1, depth, capacity + searches + 1);
    let (held, others) = calls.split_at(capacity);
    let mut operations = splitting(held[0], depth);
    operations.extend(others[1..].iter().map(|call| search(*call)));
    operations.extend(held.iter().map(|call| delete(*call)));
    operations.push(insert(others[0], 70));
    misleading(depth, capacity, held, operations)
}

/// Which page the call of a [`wide`] split goes to.
#[derive(Clone, Copy, Debug, PartialEq, Eq)]
pub enum Home {
    Old,
    New,
}

/// A job whose last operation is an insert with as many new pages and changed
/// entries as there can be after so many retries, fewer than g: its call parts
/// from the c records at the last bit, and the old page keeps one entry only. The
/// inserts before it cause the retries.
pub fn wide(depth: u32, capacity: usize, retries: u32, home: Home) -> Job {
    assert!(retries < depth, "the page can still be split");
    let zeros = depth - retries;
    let first = ((1 << retries) - 1) << zeros;
    let (own, other) = match home {
        Home::Old => (first, first + 1),
        Home::New => (first + 1, first),
    };
    let call = calls_with(own, depth, 1)[0];
    let held = calls_with(other, depth, capacity);
    let mut operations = splitting(call, retries);
    operations.push(insert(call, 70));
    misleading(depth, capacity, &held, operations)
}

/// So many calls whose pseudo keys begin with a pattern, all different.
fn calls_with(pattern: u32, local: u32, count: usize) -> Vec<u32> {
    let mut calls: Vec<u32> = Vec::new();
    for rest in 1.. {
        if calls.len() == count {
            break;
        }
        let call = key::call_with(pattern, local, rest);
        if !calls.contains(&call) {
            calls.push(call);
        }
    }
    calls
}

/// Inserts for calls that share no bit with this call, then one, then two: each
/// splits the page that this call belongs to once, if it is full of calls like it.
fn splitting(call: u32, times: u32) -> Vec<Operation> {
    let splits = |shared| insert(key::neighbour(call, shared), 10 + shared);
    (0..times).map(splits).collect()
}

/// The job of a file of one page, full of these calls, and just as many others as
/// the splits need.
fn misleading(depth: u32, capacity: usize, held: &[u32], operations: Vec<Operation>) -> Job {
    let file = ChargeFile::empty(depth, capacity, depth as usize + 1);
    let records: Vec<(u32, u32)> = held.iter().map(|call| (*call, 50)).collect();
    let mut job = Job {
        file: filled(file, &records),
        turns: Vec::new(),
        operations,
    };
    let order: Vec<usize> = (0..job.operations.len()).collect();
    job.turns = misleading_turns(&job, &order);
    job
}

/// A list that finishes the operations in this order. At the start all of them
/// read their entry. Whenever one has finished, those whose entry names another
/// page by now go on until they have read it again, and no further. No turn
/// waits: a lock is held only by the one that is being finished, or by one that
/// lets go of it at once.
pub fn misleading_turns(job: &Job, order: &[usize]) -> Vec<usize> {
    let mut dealer = Dealer::new(job);
    for &operation in order {
        dealer.read_its_entry(operation);
    }
    for (place, &operation) in order.iter().enumerate() {
        dealer.finish(operation);
        for &other in &order[place + 1..] {
            if dealer.is_misled(other) {
                dealer.read_its_entry(other);
            }
        }
    }
    dealer.turns
}

/// The same for any job, in an order of chance: the list has as many turns as a
/// job can carry, those behind the last step being turns of finished operations.
pub fn misleading_turns_by_chance(random: &mut Random, job: &Job) -> Vec<usize> {
    let mut order: Vec<usize> = (0..job.operations.len()).collect();
    random.shuffle(&mut order);
    to_the_longest(random, job, misleading_turns(job, &order))
}

/// A list with turns behind it, mostly of unfinished operations while there are
/// any, up to the most that a job can carry; with no operations, none.
pub fn to_the_longest(random: &mut Random, job: &Job, mut turns: Vec<usize>) -> Vec<usize> {
    turns.truncate(MAX_TURNS);
    let mut run = Run::new(job);
    run.deal_all(&turns);
    while turns.len() < MAX_TURNS && !job.operations.is_empty() {
        let unfinished: Vec<usize> = run.unfinished().take(6).collect();
        let any = random.below(job.operations.len());
        let next = match unfinished.as_slice() {
            some @ [_, ..] if random.percent(90) => random.one_of(some),
            _ => any,
        };
        run.deal(next);
        turns.push(next);
    }
    turns
}

/// The job with turns put into its list on which this operation only waits, as
/// many as a job can carry: some before each turn to which the page that it is to
/// lock next is locked, and those that are left over before the first.
pub fn waiting(job: &Job, operation: usize) -> Job {
    let mut run = Run::new(job);
    let mut places = Vec::new();
    for (place, &turn) in job.turns.iter().enumerate() {
        if run.rows[operation].progress.would_wait(&run.shared) {
            places.push(place);
        }
        run.deal(turn);
    }
    assert!(!places.is_empty(), "operation {operation} never waits");
    let more = MAX_TURNS - job.turns.len();
    let each = more / places.len();
    let first = more - each * (places.len() - 1);
    let mut waiting = job.clone();
    waiting.turns.clear();
    for (place, &turn) in job.turns.iter().enumerate() {
        let waits = match places.iter().position(|waits| *waits == place) {
            None => 0,
            Some(0) => first,
            Some(_) => each,
        };
        waiting.turns.extend(vec![operation; waits]);
        waiting.turns.push(turn);
    }
    waiting
}

/// The job with only those turns of its list that are counted: none that waits,
/// and none of a finished operation.
pub fn counted_only(job: &Job) -> Job {
    let mut run = Run::new(job);
    let mut counted = job.clone();
    counted.turns.retain(|turn| run.deal(*turn) == Turned::Did);
    counted
}

/// A run with the list of the turns it was dealt.
struct Dealer {
    run: Run,
    turns: Vec<usize>,
}

impl Dealer {
    fn new(job: &Job) -> Dealer {
        Dealer {
            run: Run::new(job),
            turns: Vec::new(),
        }
    }

    /// Deals a turn, which must not wait.
    fn deal(&mut self, operation: usize) {
        assert_eq!(self.run.deal(operation), Turned::Did, "a step");
        self.turns.push(operation);
    }

    fn finish(&mut self, operation: usize) {
        while !self.run.rows[operation].progress.finished() {
            self.deal(operation);
        }
    }

    /// The page that an operation has read in its entry, if it is to go on with
    /// that page now.
    fn page_read(&self, operation: usize) -> Option<usize> {
        match self.run.rows[operation].progress.stage {
            Stage::ReadPage(page) | Stage::Lock(page) => Some(page),
            _ => None,
        }
    }

    /// Whether its entry names another page by now.
    fn is_misled(&self, operation: usize) -> bool {
        let call = self.run.rows[operation].progress.operation.call;
        let named = self.run.shared.file.page_of(call);
        self.page_read(operation).is_some_and(|page| page != named)
    }

    /// Deals turns until it has read its entry, once more, or has finished.
    fn read_its_entry(&mut self, operation: usize) {
        self.deal(operation);
        while self.page_read(operation).is_none() && !self.run.rows[operation].progress.finished() {
            self.deal(operation);
        }
    }
}
