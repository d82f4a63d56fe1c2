//! Whole jobs: the largest, a small one, one with much waiting, and many different ones in rotation, since one job repeated is learnt by the
//! processor, which then foresees its turns.

use std::fs;
use std::path::Path;

use chargefile_tests::job::Counts;
use chargefile_tests::vectors;

use crate::calls::Call;
use crate::jobs;
use crate::measure::{best, rotation};
use crate::table;

const ROTATION: u64 = 64;

pub fn print() {
    table::heading("A whole job");
    compare("full-0", vectors::read("00-base/full-0").job);
    compare("full-1", vectors::read("00-base/full-1").job);
    let hotel = Path::new(env!("CARGO_MANIFEST_DIR")).join("../examples/hotel.job");
    compare("the hotel", fs::read(hotel).expect("an example"));
    compare("a contended job", jobs::contended().to_bytes());
    let all: Vec<Vec<u8>> = (0..ROTATION)
        .map(|seed| jobs::full(seed).to_bytes())
        .collect();
    let name = format!("{ROTATION} full jobs in rotation, each");
    table::line(&format!("check of {name}"), rotation(Call::Check, &all), 1);
    table::line(&format!("run of {name}"), rotation(Call::Run, &all), 1);
}

fn compare(name: &str, job: Vec<u8>) {
    let (length, turns) = (job.len(), Counts::read(&job).turns);
    let check = format!("check of {name}, {length} bytes");
    table::line(&check, best(Call::Check, &job), 1);
    let run = format!("run of {name}, {turns} turns");
    table::line(&run, best(Call::Run, &job), 1);
}
