//! The turns used as results tell them, by the library and by the tests' own implementation, after each turn of a list.
// each test program uses its own part of these
#![allow(dead_code)]

use chargefile_tests::bounds::{within, Held};
use chargefile_tests::check::least_lent;
use chargefile_tests::job::Job;
use chargefile_tests::little_endian::two_at;
use chargefile_tests::result::answer_bytes;
use chargefile_tests::run::{result_bytes, Run};

use crate::linked::{self, Lent};

/// The turns used, as a result's bytes tell them.
pub fn counts(result: &[u8], job: &Job) -> Vec<usize> {
    let count = |answer: &[u8]| two_at(answer, 2);
    answer_bytes(result, job.operations.len())
        .map(count)
        .collect()
}

/// What the library's result tells of a job.
pub fn by_library(job: &Job) -> Vec<u8> {
    let bytes = job.to_bytes();
    let (result, rows, memory) = least_lent(&bytes);
    linked::run(&bytes, &mut Lent::new(result, rows, memory)).expect("a sound job is run")
}

/// The result of a job, which the library and the tests' own implementation give alike, to the byte.
pub fn by_both(job: &Job) -> Vec<u8> {
    let result = result_bytes(&job.to_bytes());
    assert_eq!(by_library(job), result);
    result
}

/// Deals a job its turns. Before each it is asked whether the operation can use the turn: if so its count is one more, else it is what it was; no other
/// changes. So counts never fall. None is ever above the bounds. The counts at the end are those of both results.
pub fn watched(job: &Job) -> (Run, Vec<usize>) {
    let (mut run, mut used) = (Run::new(job), vec![0; job.operations.len()]);
    for &operation in &job.turns {
        used[operation] += usize::from(run.can_use_a_turn(operation));
        run.deal(operation);
        let counts = run.rows.iter().map(|row| row.used);
        assert!(counts.eq(used.iter().copied()), "wanted {used:?}");
        let kind = job.operations[operation].kind;
        within(kind, job.file.depth, used[operation]);
    }
    assert_eq!(counts(&by_both(job), job), used);
    (run, used)
}

/// The library's results of a job's list cut at every turn: the same is true of their counts. Gives back how many turns were counted.
pub fn cut_at_every_turn(job: &Job, held: &mut Held) -> usize {
    let (mut run, mut cut) = (Run::new(job), job.clone());
    let mut used = vec![0; job.operations.len()];
    for length in 0..=job.turns.len() {
        if let Some(before) = length.checked_sub(1) {
            let operation = job.turns[before];
            used[operation] += usize::from(run.can_use_a_turn(operation));
            run.deal(operation);
        }
        cut.turns = job.turns[..length].to_vec();
        let told = counts(&by_library(&cut), job);
        assert_eq!(told, used, "after {length} turns");
        held.hold_all(job, &told);
    }
    used.iter().sum()
}

/// The results of two jobs tell the same of each operation: code, page, turns used and charge. The moments are not asked: a turn that waits has a number
/// too. Gives back the turns used.
pub fn tell_the_same(one: &Job, other: &Job) -> Vec<usize> {
    let m = one.operations.len();
    let results = [by_both(one), by_both(other)];
    let [told, told_too] = results.each_ref().map(|result| answer_bytes(result, m));
    assert!(told.eq(told_too));
    counts(&results[0], one)
}
