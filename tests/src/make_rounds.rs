//! Jobs for tests that deal rounds of turns: those that are stored, those of the most
//! turns, and jobs in which many operations want one page.

use std::collections::BTreeSet;
use std::iter;

use crate::bounds::DEPTHS;
use crate::by_hand::{delete, delete_at, insert, search};
use crate::check;
use crate::examples::{examples, Example};
use crate::examples_parts::{filled, parted_file};
use crate::file::ChargeFile;
use crate::job::{Job, Operation, MAX_CAPACITY, MAX_DEPTH, MAX_PAGES};
use crate::key;
use crate::make_most_turns::{misled, wide, Home};
use crate::random::Random;
use crate::vectors::{self, Vector};
use crate::Outcome;

/// The calls of the month so far, with their charges.
const HELD: [(u32, u32); 11] = [
    (201, 35),
    (203, 80),
    (204, 120),
    (205, 15),
    (208, 60),
    (209, 45),
    (210, 240),
    (212, 20),
    (213, 95),
    (214, 30),
    (216, 55),
];

/// The morning's slips: new calls, calls that guests ask about, and calls that are
/// struck out, some only at the charge on the sheet. Call 221 comes in twice, call
/// 206 was never made, and call 209 is not at the charge on the sheet.
const NEW: [(u32, u32); 16] = [
    (217, 40),
    (218, 25),
    (219, 310),
    (220, 15),
    (221, 70),
    (222, 35),
    (223, 20),
    (224, 90),
    (225, 10),
    (226, 55),
    (227, 180),
    (221, 70),
    (228, 45),
    (229, 65),
    (231, 30),
    (232, 120),
];
const ASKED_ABOUT: [u32; 12] = [201, 209, 220, 203, 205, 225, 208, 213, 229, 212, 216, 299];
const STRUCK_OUT: [(u32, u32); 12] = [
    (201, 0),
    (209, 50),
    (210, 0),
    (205, 15),
    (206, 0),
    (222, 0),
    (213, 0),
    (212, 20),
    (217, 0),
    (208, 0),
    (204, 120),
    (226, 0),
];

/// A hotel with forty operations at depth 3, four records to a page. Of the file's
/// three pages two are full; five more are free. The slips come in four lots, each
/// with four new calls, three that are asked about and three that are struck out.
pub fn hotel_of_forty() -> Job {
    let mut operations = Vec::new();
    for lot in 0..4 {
        let new = NEW[4 * lot..][..4].iter();
        let asked_about = ASKED_ABOUT[3 * lot..][..3].iter();
        let struck_out = STRUCK_OUT[3 * lot..][..3].iter();
        operations.extend(new.map(|(call, charge)| insert(*call, *charge)));
        operations.extend(asked_about.map(|call| search(*call)));
        operations.extend(struck_out.map(|(call, charge)| delete_at(*call, *charge)));
    }
    let pages = [(1, 0b0), (2, 0b10), (2, 0b11)];
    Job {
        file: filled(parted_file(3, 4, 8, &pages), &HELD),
        operations,
        turns: Vec::new(),
    }
}

/// The jobs of the stored vectors and of the examples that are run, with their names.
pub fn stored() -> Vec<(String, Job)> {
    let is_run = |vector: &Vector| matches!(vector.wanted, Outcome::Done { .. });
    let stored = vectors::all().into_iter().filter(is_run);
    let stored = stored.map(|vector| (vector.name, Job::from_bytes(&vector.job)));
    let accepted = |example: &Example| check(&example.bytes()).is_none();
    let told = examples().into_iter().filter(accepted);
    let told = told.map(|example| (example.name.to_string(), example.job));
    stored.chain(told).collect()
}

/// Jobs of every depth in which some list makes the operations use as many turns as
/// they can.
pub fn of_the_most_turns(capacity: usize) -> Vec<Job> {
    let of_depth = |depth| {
        let wide =
            move |retries| [Home::Old, Home::New].map(|home| wide(depth, capacity, retries, home));
        iter::once(misled(depth, capacity, 2)).chain((0..depth).flat_map(wide))
    };
    DEPTHS.into_iter().flat_map(of_depth).collect()
}

/// Random jobs that contend for one page, of every depth and every capacity.
pub fn contended_of_each(seed: u64, name: &str) -> Vec<Job> {
    let of = |depth, capacity| {
        let random = &mut Random::new(seed, &format!("{name} {depth} {capacity}"));
        contended(random, depth, capacity)
    };
    let of_depth = |depth| (1..=MAX_CAPACITY).map(move |capacity| of(depth, capacity));
    DEPTHS.into_iter().flat_map(of_depth).collect()
}

/// As many inserts as there can be, one for each entry of the largest directory, by
/// rising entry. They all begin at one page, which is full of calls of the last
/// entry. So pages split while others are under way to them, over and over, until
/// each of them is in a page with few others, or there is no page left.
pub fn one_for_each_entry(capacity: usize) -> Job {
    let depth = MAX_DEPTH as u32;
    let last = (1 << depth) - 1;
    let held: Vec<(u32, u32)> = (0..capacity as u32)
        .map(|i| (key::call_with(last, depth, 1_000 + i), 50))
        .collect();
    let own = |entry| insert(key::call_with(entry, depth, 7), 60);
    Job {
        file: filled(ChargeFile::empty(depth, capacity, MAX_PAGES), &held),
        operations: (0..=last).map(own).collect(),
        turns: Vec::new(),
    }
}

/// A random job without turns whose operations all go for one page, or for the pages
/// that come of it. Of its calls some have one entry, and the others share a few bits
/// with these: so inserts split the page again and again.
pub fn contended(random: &mut Random, depth: u32, capacity: usize) -> Job {
    let count = random.between(1, 9);
    contended_by(random, depth, capacity, count)
}

/// The same with so many operations.
pub fn contended_by(random: &mut Random, depth: u32, capacity: usize, count: usize) -> Job {
    let calls = calls_near_one(random, depth, capacity + 6);
    let page_count = match random.below(4) {
        0 => random.between(1, 4),
        _ => (1 << depth).min(MAX_PAGES),
    };
    let held = match random.below(4) {
        0 => random.below(capacity + 1),
        _ => capacity,
    };
    let records: Vec<(u32, u32)> = calls[..held].iter().map(|call| (*call, 50)).collect();
    Job {
        file: filled(ChargeFile::empty(depth, capacity, page_count), &records),
        operations: (0..count).map(|_| operation(random, &calls)).collect(),
        turns: Vec::new(),
    }
}

/// So many calls, all different, in any order.
fn calls_near_one(random: &mut Random, depth: u32, count: usize) -> Vec<u32> {
    let hot = random.word();
    let own = key::index(hot, depth) as u32;
    let mut calls = BTreeSet::new();
    while calls.len() < count {
        let like_it = key::call_with(own, depth, random.below(1000) as u32);
        calls.insert(match random.below(3) {
            0 => like_it,
            _ => key::neighbour(like_it, random.below(depth as usize + 1) as u32),
        });
    }
    let mut calls: Vec<u32> = calls.into_iter().collect();
    random.shuffle(&mut calls);
    calls
}

/// An operation on one of these calls, an insert more often than not.
fn operation(random: &mut Random, calls: &[u32]) -> Operation {
    let call = random.one_of(calls);
    match random.below(10) {
        0 | 1 => search(call),
        2 => delete_at(call, random.one_of(&[50, 60])),
        3 | 4 => delete(call),
        _ => insert(call, 60),
    }
}
