//! Random jobs whose operations all go for a few calls at a few charges, so that
//! a call comes and goes at one charge and another while a delete that asks for
//! one of them is under way.

use crate::file::ChargeFile;
use crate::job::{Job, Kind, Operation};
use crate::make;
use crate::make_asked::near;
use crate::make_turns;
use crate::one_key;
use crate::random::Random;

/// A job for few calls, at times all with one key. Some pages are full of others,
/// so that an insert splits them and a delete has to look for its call in another
/// page.
pub fn job(random: &mut Random) -> Job {
    let mut file = make::empty_file(random);
    let mut calls = match random.below(5) {
        0 => one_key::some_group(random),
        _ => make::pool(random, file.depth),
    };
    calls.truncate(random.between(1, 4));
    make::fill(random, &mut file, &calls);
    let charges = few_charges(random);
    charge_anew(random, &mut file, &charges);
    let mut job = Job {
        operations: operations(random, &calls, &charges),
        file,
        turns: Vec::new(),
    };
    job.turns = make_turns::turns(random, &job);
    job
}

/// A charge, some that are near it, and mostly 0 as well.
fn few_charges(random: &mut Random) -> Vec<u32> {
    let first = match random.below(4) {
        0 => u32::MAX,
        1 => random.word(),
        _ => random.below(1000) as u32,
    };
    let mut charges = vec![first];
    for _ in 0..random.between(1, 3) {
        charges.push(near(random, first));
    }
    if random.percent(70) {
        charges.push(0);
    }
    charges
}

/// Lets every record of a file have one of these charges.
fn charge_anew(random: &mut Random, file: &mut ChargeFile, charges: &[u32]) {
    for page in &mut file.pages {
        for record in &mut page.records {
            record.charge = random.one_of(charges);
        }
    }
}

fn operations(random: &mut Random, calls: &[u32], charges: &[u32]) -> Vec<Operation> {
    let count = random.between(2, 16);
    let operation = |_| {
        let kind = match random.below(10) {
            0 => Kind::Search,
            1..=4 => Kind::Insert,
            _ => Kind::Delete,
        };
        let charge = match kind {
            Kind::Search => 0,
            Kind::Insert => random.one_of(charges),
            Kind::Delete if random.percent(15) => 0,
            Kind::Delete => random.one_of(charges),
        };
        let call = random.one_of(calls);
        Operation { kind, call, charge }
    };
    (0..count).map(operation).collect()
}
