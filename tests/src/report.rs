//! What `chargelog` prints ("Jobs worked through").

use std::fmt::Write;

use crate::check::check;
use crate::job::Job;
use crate::page::Page;
use crate::run::Run;

/// The whole printed text. The program lends enough of everything, so row 11
/// is never met.
pub fn report(job: &[u8]) -> Vec<u8> {
    // "A refused job prints one line: `refused`, number, place."
    if let Some((number, place)) = check(job) {
        return format!("refused {number} {place}\n").into_bytes();
    }
    let job = Job::from_bytes(job);
    let mut run = Run::new(&job);
    run.deal_all(&job.turns);
    text(&job, &run).into_bytes()
}

fn text(job: &Job, run: &Run) -> String {
    let mut text = job_line(job);
    let answers = run.answers();
    for (number, (operation, answer)) in job.operations.iter().zip(&answers).enumerate() {
        let (kind, word) = (operation.kind.word(), answer.code.word());
        let (call, charge, turns) = (operation.call, answer.charge, answer.turns);
        writeln!(
            text,
            "op {number} {kind} {call} {word} {charge} turns {turns}"
        )
        .unwrap();
    }
    for line in run.log() {
        writeln!(text, "at {} op {}", line.moment, line.operation).unwrap();
    }
    // "A `page` line, only with a charge file and for pages in use".
    if run.under_way() == 0 {
        let file = &run.shared.file;
        for number in 1..=file.in_use {
            text += &page_line(number, file.page(number));
        }
    }
    text
}

/// "The `job` line has g, c, P, m and the turn count."
fn job_line(job: &Job) -> String {
    let counts = job.counts();
    format!(
        "job depth {} capacity {} pages {} operations {} turns {}\n",
        counts.depth, counts.capacity, counts.pages, counts.operations, counts.turns
    )
}

/// It "ends in call=charge for each record, in the page's order".
fn page_line(number: usize, page: &Page) -> String {
    let mut line = format!(
        "page {number} depth {} pattern {} :",
        page.depth, page.pattern
    );
    for record in &page.records {
        write!(line, " {}={}", record.call, record.charge).unwrap();
    }
    line + "\n"
}
