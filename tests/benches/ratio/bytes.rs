//! What the check takes for a byte of each kind, and what the least job takes.

use chargefile_tests::job::{Job, Kind, MAX_OPERATIONS, MAX_TURNS};

use crate::calls::Call;
use crate::jobs::{operation, rounds, without_turns, Even};
use crate::measure::{best, difference};
use crate::table;

pub fn print() {
    table::heading("The check, a byte");
    let one_record = Even {
        capacity: 1,
        ..Even::large(8, 1)
    };
    file("256 pages with 8 records of 8", Even::large(8, 8));
    file("256 pages with 4 records of 8", Even::large(8, 4));
    file("256 pages with 0 records of 8", Even::large(8, 0));
    file("256 pages with 1 record of 1", one_record);
    file("1 page in use of 256, with no record", Even::large(0, 0));
    work();
    table::heading("The least job, and the largest file");
    let least = least().to_bytes();
    table::line("check of the least job", best(Call::Check, &least), 1);
    table::line("run of the least job", best(Call::Run, &least), 1);
    let largest = without_turns(Even::large(8, 8).file(), Vec::new()).to_bytes();
    let name = "run of a full file with no operations";
    table::line(name, best(Call::Run, &largest), 1);
}

fn file(name: &str, shape: Even) {
    let job = without_turns(shape.file(), Vec::new()).to_bytes();
    let length = job.len();
    let name = format!("{name}, {length} bytes");
    table::line(&name, best(Call::Check, &job).each(length), 3);
}

/// One page with no record, no operation and no turn: 46 bytes.
fn least() -> Job {
    let shape = Even {
        depth: 0,
        capacity: 1,
        pages: 1,
        local: 0,
        records: 0,
    };
    without_turns(shape.file(), Vec::new())
}

/// The least job, with as many operations as can be, and then with as many turns: what these make it longer.
fn work() {
    let least = least();
    let operations = Job {
        operations: vec![operation(Kind::Search, 5); MAX_OPERATIONS],
        ..least.clone()
    };
    let turns = Job {
        turns: rounds(MAX_OPERATIONS, MAX_TURNS / MAX_OPERATIONS, None),
        ..operations.clone()
    };
    added("256 operations", &operations, &least);
    added("16,384 turns", &turns, &operations);
}

fn added(name: &str, longer: &Job, shorter: &Job) {
    let length = longer.to_bytes().len() - shorter.to_bytes().len();
    let times = difference(Call::Check, longer, shorter).each(length);
    table::line(&format!("{name}, {length} bytes"), times, 3);
}
