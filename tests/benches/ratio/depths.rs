//! That a turn is constant work: what a turn takes over depths and numbers of operations.

use chargefile_tests::job::{Job, Kind, Operation};
use chargefile_tests::key;
use chargefile_tests::run::Run;
use chargefile_tests::turn::Turned;

use crate::calls::Call;
use crate::jobs::{call_from, held, operation, rounds, without_turns, Even};
use crate::measure::difference;
use crate::table;

pub fn print() {
    table::heading("A turn, over depths and numbers of operations");
    for depth in [0, 4, 8] {
        for m in [16, 256] {
            line(
                format!("search, none: depth {depth}, {m} operations"),
                searches(depth, m),
                rounds(m, 3, None),
            );
        }
    }
    for depth in [1, 4, 8] {
        let turns = 8 + (1 << (depth - 1));
        line(
            format!("insert, one split: depth {depth}, {turns} turns"),
            split(depth),
            vec![0; turns],
        );
    }
}

fn line(name: String, shorter: Job, turns: Vec<usize>) {
    let count = turns.len();
    let longer = Job {
        turns,
        ..shorter.clone()
    };
    assert_steps(&name, &longer);
    let times = difference(Call::Run, &longer, &shorter).each(count);
    table::line(&name, times, 2);
}

/// Every turn does a step, and with the last of them all operations are finished.
fn assert_steps(name: &str, job: &Job) {
    let mut run = Run::new(job);
    for turn in &job.turns {
        assert_eq!(run.deal(*turn), Turned::Did, "{name}");
    }
    assert_eq!(run.unfinished().next(), None, "{name}");
}

/// A directory all of whose entries name one page, which takes one record.
fn one_page(depth: u32, pages: usize, records: usize, operations: Vec<Operation>) -> Job {
    let file = Even {
        depth,
        capacity: 1,
        pages,
        local: 0,
        records,
    };
    without_turns(file.file(), operations)
}

/// m searches that find nothing.
fn searches(depth: u32, m: usize) -> Job {
    let search = |i: u32| operation(Kind::Search, i.wrapping_mul(2_654_435_761));
    one_page(depth, 1, 0, (0..m as u32).map(search).collect())
}

/// An insert that splits the page in two: half of the directory changes. Its pseudo key begins with another bit than that of the page's record.
fn split(depth: u32) -> Job {
    let other = 1 - key::index(held(0, 0, 0), 1) as u32;
    let insert = operation(Kind::Insert, call_from(other, 1, 0));
    one_page(depth, 2, 1, vec![insert])
}
