//! Whether a log explains its answers by the plain list ("The plain list").
//!
//! It works on what a result says and not on how it came about, so it judges
//! any implementation's result.

use crate::answer::{Code, Line};
use crate::job::Job;
use crate::plain_list::{told, PlainList};
use crate::result::Contents;

/// Feeds the plain list in log order and gives back the list at the end, or
/// says which line does not fit. "It starts as what the file held when it came
/// in."
pub fn explain(job: &Job, contents: &Contents) -> Result<PlainList, String> {
    explain_from(PlainList::of(&job.file.holds())?, job, contents)
}

/// The same with a list that is there already: that of the jobs before this one.
pub fn explain_from(
    mut list: PlainList,
    job: &Job,
    contents: &Contents,
) -> Result<PlainList, String> {
    if contents.answers.len() != job.operations.len() {
        return Err("an answer for each operation is wanted".into());
    }
    log_is_complete(contents)?;
    for line in &contents.log {
        let operation = &job.operations[line.operation];
        let answer = &contents.answers[line.operation];
        let fed = list.feed(operation, told(operation, answer.code));
        if fed != (answer.code, answer.charge) {
            return Err(format!(
                "{line:?} {operation:?}: {answer:?}, the plain list says {fed:?}"
            ));
        }
    }
    Ok(list)
}

/// "The log has each operation whose code is not 0 once, and no other", in its
/// order; a code 0 has charge 0.
fn log_is_complete(contents: &Contents) -> Result<(), String> {
    if !contents.log.windows(2).all(|pair| pair[0] < pair[1]) {
        return Err("the log is not sorted by moment, then operation".into());
    }
    for (operation, answer) in contents.answers.iter().enumerate() {
        let mine = |line: &&Line| line.operation == operation;
        let lines = contents.log.iter().filter(mine).count();
        if lines != usize::from(answer.code != Code::NotYet) {
            return Err(format!("operation {operation} has {lines} lines"));
        }
        if answer.code == Code::NotYet && answer.charge != 0 {
            return Err(format!("operation {operation} has a charge but no code"));
        }
    }
    let known = |line: &Line| line.operation < contents.answers.len();
    match contents.log.iter().find(|line| !known(line)) {
        Some(line) => Err(format!("{line:?} names no operation")),
        None => Ok(()),
    }
}
