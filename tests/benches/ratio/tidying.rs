//! Tidying: files in which everything is joined, nothing, and something.

use std::fs;
use std::path::Path;

use chargefile_tests::file::ChargeFile;
use chargefile_tests::job::Job;
use chargefile_tests::page::Record;
use chargefile_tests::random::Random;
use chargefile_tests::run::Run;

use crate::calls::Call;
use crate::jobs::Even;
use crate::measure::{best, rotation};
use crate::table;

const ROTATION: u64 = 64;

pub fn print() {
    table::heading("Tidying a charge file");
    line("256 pages that come to one, depth 8", 8, few_records());
    line("256 pages that come to one, depth 0", 0, few_records());
    line(
        "256 full pages, nothing to join",
        8,
        Even::large(8, 8).file(),
    );
    line(
        "256 pages with 4 records, joined in pairs",
        8,
        Even::large(8, 4).file(),
    );
    line("256 thin pages", 8, thin(0));
    let all: Vec<Vec<u8>> = (0..ROTATION)
        .map(|seed| Job::charge_file(&thin(seed)))
        .collect();
    let name = format!("{ROTATION} files of thin pages in rotation, each");
    table::line(&name, rotation(Call::Tidy(8), &all), 1);
    let hotel = hotel();
    let name = format!("the hotel's, {} bytes", hotel.len());
    table::line(&name, best(Call::Tidy(3), &hotel), 1);
}

fn line(name: &str, depth: u64, file: ChargeFile) {
    let file = Job::charge_file(&file);
    table::line(name, best(Call::Tidy(depth), &file), 1);
}

/// As many pages as can be, and no more records than one of them takes.
fn few_records() -> ChargeFile {
    let mut file = Even::large(8, 0).file();
    for call in (0..8).map(|i| 1_000 + 37 * i) {
        let number = file.page_of(call);
        *file.page_mut(number) = file.page(number).add(Record { call, charge: 7 });
    }
    file
}

/// What many deletes leave of 256 full pages: one record in four, and of some pages nearly all.
fn thin(seed: u64) -> ChargeFile {
    let random = &mut Random::new(seed, "thin files");
    let mut file = Even::large(8, 8).file();
    for page in &mut file.pages {
        let of_ten = if random.below(8) == 0 { 9 } else { 2 };
        page.records.retain(|_| random.below(10) < of_ten);
    }
    file
}

/// The charge file that the hotel's job leaves.
fn hotel() -> Vec<u8> {
    let path = Path::new(env!("CARGO_MANIFEST_DIR")).join("../examples/hotel.job");
    let job = Job::from_bytes(&fs::read(path).expect("an example"));
    let mut run = Run::new(&job);
    run.deal_all(&job.turns);
    run.contents()
        .charge_file
        .expect("no operation is under way")
}
