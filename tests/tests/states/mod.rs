//! The states of a run, seen page by page.
// each test program uses its own part of these
#![allow(dead_code)]

use chargefile_tests::job::Job;
use chargefile_tests::one_key;
use chargefile_tests::page::{Page, Record};
use chargefile_tests::run::Run;

/// A page as it stands, its number, what it was before if a turn has changed it, and whether an entry names it.
pub struct Seen<'a> {
    pub number: usize,
    pub page: &'a Page,
    pub before: Option<Page>,
    pub named: bool,
}

/// Deals a job its turns and shows every page of the table, in use or not, as it stands at the start, and then each page that a turn has changed: every
/// page of every state, since the others have been seen as they are.
pub fn every_page(job: &Job, mut see: impl FnMut(&Seen)) {
    let mut seen = vec![None; job.file.pages.len()];
    let mut look = |run: &Run| {
        let file = &run.shared.file;
        for (i, page) in file.pages.iter().enumerate() {
            if seen[i].as_ref() != Some(page) {
                let before = seen[i].replace(page.clone());
                let number = i + 1;
                let named = file.directory.contains(&number);
                see(&Seen {
                    number,
                    page,
                    before,
                    named,
                });
            }
        }
    };
    let mut run = Run::new(job);
    look(&run);
    for &operation in &job.turns {
        run.deal(operation);
        look(&run);
    }
}

/// Calls to look for in a page: each that it has with its two neighbours and the others with its key, the first and the last there are, and those of the
/// job's operations.
pub fn calls_to_look_for(job: &Job, page: &Page) -> Vec<u32> {
    let near = page
        .calls()
        .into_iter()
        .flat_map(|call| [call, call.wrapping_sub(1), call.wrapping_add(1)]);
    let of_one_key = page.calls().into_iter().flat_map(one_key::others);
    let asked = job.operations.iter().map(|operation| operation.call);
    near.chain(of_one_key)
        .chain([0, u32::MAX])
        .chain(asked)
        .collect()
}

/// Looking at all records of a page, which has no call twice.
pub fn among_all(page: &Page, call: u32) -> Option<Record> {
    let found: Vec<Record> = page
        .records
        .iter()
        .filter(|r| r.call == call)
        .copied()
        .collect();
    assert!(found.len() <= 1, "call {call} twice in {page:?}");
    found.first().copied()
}
