//! Random files and jobs that no row of the refusal table meets.
//!
//! Evenly drawn call numbers would almost never meet, so the calls come from a
//! small pool built around a hot call: the pseudo keys of many of them share
//! their first bits with its own, and those of some all bits. That is what makes
//! full pages, splits of several pages, "no depth" and duplicates common instead
//! of rare.

use crate::file::ChargeFile;
use crate::job::{Job, Kind, Operation, MAX_OPERATIONS, MAX_PAGES};
use crate::key;
use crate::make_asked;
use crate::make_turns;
use crate::one_key;
use crate::page::Record;
use crate::random::Random;

/// A random job.
pub fn job(random: &mut Random) -> Job {
    let mut job = job_without_turns(random);
    job.turns = make_turns::turns(random, &job);
    job
}

/// A random job with few operations and turns, for tests that take a job apart
/// byte by byte and want many of them.
pub fn small_job(random: &mut Random) -> Job {
    let mut job = job_without_turns(random);
    job.operations.truncate(random.below(8));
    job.turns = make_turns::turns(random, &job);
    job.turns.truncate(random.below(40));
    job
}

/// A job of any size for every sixteenth seed, and else a small one: a large one
/// takes long.
pub fn mostly_small_job(random: &mut Random, seed: u64) -> Job {
    if seed % 16 == 0 {
        job(random)
    } else {
        small_job(random)
    }
}

/// A job without turns, for tests that have turns dealt for it: of any size for
/// every sixteenth seed, and else with few operations.
pub fn mostly_small_job_without_turns(random: &mut Random, seed: u64) -> Job {
    let mut job = job_without_turns(random);
    if !seed.is_multiple_of(16) {
        job.operations.truncate(random.below(8));
    }
    job
}

fn job_without_turns(random: &mut Random) -> Job {
    let mut file = empty_file(random);
    let calls = pool(random, file.depth);
    fill(random, &mut file, &calls);
    Job {
        operations: operations(random, &file, &calls),
        file,
        turns: Vec::new(),
    }
}

/// A random directory with its pages, no records yet.
pub fn empty_file(random: &mut Random) -> ChargeFile {
    let depth = match random.below(3) {
        0 => random.below(9) as u32,
        _ => random.between(2, 8) as u32,
    };
    let capacity = match random.below(2) {
        0 => random.between(1, 3),
        _ => random.between(1, 8),
    };
    let all = 1usize << depth;
    let page_count = match random.below(8) {
        0 => random.between(1, 4),
        1 => all,
        2 => (all + random.below(3)).min(MAX_PAGES),
        3 | 4 => MAX_PAGES,
        _ => random.between(1, all),
    };
    let mut file = ChargeFile::empty(depth, capacity, page_count);
    let target = match random.below(8) {
        0..=2 => 1,
        3 => page_count,
        _ => random.between(1, page_count.min(24)),
    };
    grow(random, &mut file, target);
    if random.percent(60) {
        renumber(random, &mut file);
    }
    file
}

/// Splits empty pages until so many are in use. A deep file always splits
/// around one entry; a shallow one anywhere.
pub(crate) fn grow(random: &mut Random, file: &mut ChargeFile, target: usize) {
    let hot = random.below(file.directory.len());
    let deep = random.percent(40);
    while file.in_use < target {
        let splits = |number: &usize| file.page(*number).depth < file.depth;
        let open: Vec<usize> = (1..=file.in_use).filter(splits).collect();
        let Some(any) = (!open.is_empty()).then(|| random.one_of(&open)) else {
            return;
        };
        let around = file.directory[hot];
        let chosen = if deep && open.contains(&around) {
            around
        } else {
            any
        };
        let (stays, moves) = file.page(chosen).halve();
        file.in_use += 1;
        for j in 0..file.directory.len() {
            if moves.owns(j, file.depth) {
                file.directory[j] = file.in_use;
            }
        }
        *file.page_mut(chosen) = stays;
        let new = file.in_use;
        *file.page_mut(new) = moves;
    }
}

/// Gives the pages in use other numbers: nothing says that a page with bit 0
/// stands before its other half.
pub(crate) fn renumber(random: &mut Random, file: &mut ChargeFile) {
    let mut numbers: Vec<usize> = (1..=file.in_use).collect();
    random.shuffle(&mut numbers);
    let old = file.pages.clone();
    for (from, to) in numbers.iter().enumerate() {
        file.pages[to - 1] = old[from].clone();
    }
    for entry in &mut file.directory {
        *entry = numbers[*entry - 1];
    }
}

/// The call numbers that records and operations are drawn from.
pub fn pool(random: &mut Random, depth: u32) -> Vec<u32> {
    let any = random.word();
    let one_key = match random.below(5) {
        0 | 1 => one_key::some_group(random),
        _ => vec![random.one_of(&[0, 1, u32::MAX, 0x5555_5555, any, any])],
    };
    let hot = one_key[0];
    let size = match random.below(3) {
        0 => random.between(1, 6),
        1 => random.between(6, 24),
        _ => random.between(24, 120),
    };
    // Numbers in a row: all of them, or those of one line card, which stands "in
    // the low eight bits".
    let in_a_row = random.percent(25).then(|| random.one_of(&[1, 256]));
    let variety = random.one_of(&[4, 16, 256, 1 << 12]);
    let call = |i: usize| match random.below(12) {
        0 => random.word(),
        1 => random.one_of(&[0, u32::MAX, 1, 1 << 31]),
        2..=5 if one_key.len() > 1 => random.one_of(&one_key),
        _ => match in_a_row {
            Some(step) => hot.wrapping_add(step * i as u32),
            None => {
                let shared = random.below(depth as usize + 3) as u32;
                let rest = random.below(variety) as u32;
                key::call_with(key::index(hot, shared) as u32, shared, rest)
            }
        },
    };
    (0..size).map(call).collect()
}

/// Puts records of the pool in their pages, then brings some pages to the
/// brim with other calls that belong there.
pub(crate) fn fill(random: &mut Random, file: &mut ChargeFile, calls: &[u32]) {
    let share = random.one_of(&[0, 30, 50, 80]);
    for &call in calls {
        if random.percent(share) {
            store(random, file, call);
        }
    }
    let brim = random.one_of(&[0, 20, 90]);
    let variety = random.one_of(&[4, 256, 1 << 20]);
    for number in 1..=file.in_use {
        let (depth, pattern) = (file.page(number).depth, file.page(number).pattern);
        let tries = if random.percent(brim) {
            file.capacity
        } else {
            0
        };
        let one_key = one_key_now_and_then(random, pattern, depth);
        for i in 0..tries {
            let rest = random.below(variety) as u32;
            let own = || key::call_with(pattern, depth, rest);
            let call = one_key.get(i).copied().unwrap_or_else(own);
            store(random, file, call);
        }
    }
}

/// Calls with one key that belong in a page; mostly none.
pub(crate) fn one_key_now_and_then(random: &mut Random, pattern: u32, depth: u32) -> Vec<u32> {
    if random.percent(85) {
        return Vec::new();
    }
    one_key::some_group_with(random, pattern, depth)
}

/// Stores a call in its page if it is not there and the page has room.
pub(crate) fn store(random: &mut Random, file: &mut ChargeFile, call: u32) {
    let number = file.page_of(call);
    let full = file.page(number).records.len() == file.capacity;
    if !full && file.page(number).find(call).is_none() {
        let charge = charge(random);
        *file.page_mut(number) = file.page(number).add(Record { call, charge });
    }
}

/// Mostly small, sometimes at the ends: "every value of both is allowed". Zero is
/// no rare one, since a delete that asks for it asks for nothing in particular.
pub(crate) fn charge(random: &mut Random) -> u32 {
    match random.below(8) {
        0 => 0,
        1 => random.one_of(&[0, u32::MAX, 1 << 31]),
        2 => random.word(),
        _ => random.below(1000) as u32,
    }
}

/// Random operations on a file, most of them on these calls.
pub(crate) fn operations(random: &mut Random, file: &ChargeFile, calls: &[u32]) -> Vec<Operation> {
    let count = match random.below(16) {
        0 => random.below(2),
        1 => random.between(60, MAX_OPERATIONS),
        2..=6 => random.between(2, 8),
        _ => random.between(8, 40),
    };
    // Searches, inserts and deletes out of a hundred.
    let mixes = [(33, 34), (20, 70), (5, 90), (50, 40), (10, 45), (10, 30)];
    let (searches, inserts) = random.one_of(&mixes);
    let held: Vec<u32> = file.holds().iter().map(|record| record.call).collect();
    let operation = |_| {
        let kind = match random.below(100) {
            share if share < searches => Kind::Search,
            share if share < searches + inserts => Kind::Insert,
            _ => Kind::Delete,
        };
        let call = asked_for(random, file.depth, &held, calls);
        let charge = match kind {
            Kind::Insert => charge(random),
            // What the deletes ask for is said when all operations are there.
            Kind::Search | Kind::Delete => 0,
        };
        Operation { kind, call, charge }
    };
    let mut operations: Vec<Operation> = (0..count).map(operation).collect();
    make_asked::ask(random, file, &mut operations);
    operations
}

/// The call that an operation goes for: of those that the file holds, of the
/// pool, or near one of these.
fn asked_for(random: &mut Random, depth: u32, held: &[u32], calls: &[u32]) -> u32 {
    match random.below(10) {
        0 => random.word(),
        1 if !held.is_empty() => random.one_of(held),
        2 if !held.is_empty() => {
            let held = random.one_of(held);
            of_its_key(random, held).unwrap_or(held)
        }
        3..=5 => {
            let near = random.one_of(calls);
            neighbour(random, near, depth)
        }
        _ => random.one_of(calls),
    }
}

/// Another call with the key of this one, if some are known.
fn of_its_key(random: &mut Random, call: u32) -> Option<u32> {
    let others = one_key::others(call);
    (!others.is_empty()).then(|| random.one_of(&others))
}

/// A near neighbour of a call of the pool, often still missing: one with the same
/// key, or one whose key has its first bits, more of them at times than a
/// directory counts.
fn neighbour(random: &mut Random, call: u32, depth: u32) -> u32 {
    let of_its_key = match random.below(3) {
        0 => of_its_key(random, call),
        _ => None,
    };
    let shared = random.below(depth as usize + 6) as u32;
    of_its_key.unwrap_or_else(|| key::neighbour(call, shared))
}
