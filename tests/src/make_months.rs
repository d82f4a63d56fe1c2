//! Random jobs that begin from a file that is there already, such as the one
//! that the job before has left. Every operation of theirs finishes, so that
//! they leave a file for the next.

use crate::file::ChargeFile;
use crate::job::{Job, Kind, Operation, MAX_OPERATIONS};
use crate::make;
use crate::make_asked::near;
use crate::make_thin;
use crate::make_turns;
use crate::random::Random;
use crate::run::Run;

/// At most so many operations in a month, since there are many months.
const OPERATIONS: usize = 24;

/// A month with operations of all kinds, most of them on these calls.
pub fn month(random: &mut Random, file: ChargeFile, calls: &[u32]) -> Job {
    let mut operations = make::operations(random, &file, calls);
    operations.truncate(OPERATIONS);
    with_turns(random, file, operations)
}

/// A month that takes most calls out of the file, in any order. Of those that it
/// asks for, few are there at another charge.
pub fn month_of_deletes(random: &mut Random, file: ChargeFile) -> Job {
    let share = random.one_of(&[50, 80, 100]);
    let mut operations = Vec::new();
    for record in file.holds() {
        if random.percent(share) {
            operations.push(Operation {
                kind: Kind::Delete,
                call: record.call,
                charge: match random.below(20) {
                    0 => near(random, record.charge),
                    1..=9 => record.charge,
                    _ => 0,
                },
            });
        }
    }
    random.shuffle(&mut operations);
    operations.truncate(MAX_OPERATIONS);
    with_turns(random, file, operations)
}

/// A random turn list for them, cut short, and then every operation that is not
/// finished takes one turn after another, in rounds, until all are.
fn with_turns(random: &mut Random, file: ChargeFile, operations: Vec<Operation>) -> Job {
    let mut job = Job {
        file,
        operations,
        turns: Vec::new(),
    };
    job.turns = make_turns::turns(random, &job);
    job.turns.truncate(10 * job.operations.len());
    let mut run = Run::new(&job);
    run.deal_all(&job.turns);
    loop {
        let open: Vec<usize> = run.unfinished().collect();
        if open.is_empty() {
            return job;
        }
        run.deal_all(&open);
        job.turns.extend(open);
    }
}

/// A file between two months, to be tidied: a thin one, the same when most of
/// what it has is deleted, or what a job of any kind leaves.
pub fn between_months(random: &mut Random) -> ChargeFile {
    match random.below(4) {
        0 | 1 => make_thin::file(random),
        2 => {
            let file = make_thin::file(random);
            let job = month_of_deletes(random, file);
            left_by(&job).expect("every operation finishes")
        }
        _ => {
            let job = make::small_job(random);
            left_by(&job).unwrap_or(job.file)
        }
    }
}

/// The file that a job leaves. One that leaves operations under way leaves
/// none.
pub fn left_by(job: &Job) -> Option<ChargeFile> {
    let mut run = Run::new(job);
    run.deal_all(&job.turns);
    (run.under_way() == 0).then_some(run.shared.file)
}
