//! Turns dealt for a job: where nobody waits, where most do, and where pages split under those who are under way to them.

use std::fs;
use std::path::Path;

use chargefile_tests::deal::list;
use chargefile_tests::job::{Job, Kind};
use chargefile_tests::make_rounds::{hotel_of_forty, one_for_each_entry};
use chargefile_tests::vectors;

use crate::calls::Call;
use crate::jobs::{self, held, operation, without_turns, Even};
use crate::measure::{best, rotation};
use crate::table;

const ROTATION: u64 = 64;

pub fn print() {
    table::heading("Turns dealt for a job");
    line("256 searches", searches());
    line("256 deletes at one page", one_page());
    line("256 inserts that split all pages", one_for_each_entry(1));
    line("full", Job::from_bytes(&full()));
    line("a hotel's forty operations", hotel_of_forty());
    line("the school", school());
    let all: Vec<Vec<u8>> = (0..ROTATION).map(full_without_turns).collect();
    let name = format!("{ROTATION} full jobs in rotation, each");
    table::line(&name, rotation(Call::Deal, &all), 1);
    let file = without_turns(Even::large(8, 8).file(), Vec::new());
    line("a full file with no operations", file);
}

fn line(name: &str, job: Job) {
    let name = format!("{name}, {} turns", list(&job).len());
    table::line(&name, best(Call::Deal, &job.to_bytes()), 1);
}

/// 256 searches over 32 full pages, which find their calls.
fn searches() -> Job {
    let search = |i: u32| operation(Kind::Search, held(i % 32, 5, i / 32));
    without_turns(Even::large(5, 8).file(), (0..256).map(search).collect())
}

/// All but one wait at any time: deletes of calls that are not there, for which there is nothing to write.
fn one_page() -> Job {
    let shape = Even {
        depth: 0,
        pages: 1,
        ..Even::large(0, 8)
    };
    let delete = |i| operation(Kind::Delete, i);
    without_turns(shape.file(), (0..256).map(delete).collect())
}

/// The stored job of the largest kind.
fn full() -> Vec<u8> {
    let vectors = vectors::to_be_dealt().into_iter();
    let full = vectors.filter(|vector| vector.name == "14-deal/full");
    full.map(|vector| vector.job).next().expect("a vector")
}

fn full_without_turns(seed: u64) -> Vec<u8> {
    let full = jobs::full(seed);
    without_turns(full.file, full.operations).to_bytes()
}

fn school() -> Job {
    let path = Path::new(env!("CARGO_MANIFEST_DIR")).join("../examples/school.job");
    let job = Job::from_bytes(&fs::read(path).expect("an example"));
    without_turns(job.file, job.operations)
}
