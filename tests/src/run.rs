//! A whole run: the turn list dealt out one turn at a time ("Turns").

use crate::answer::{Answer, Code, Line};
use crate::check::{check_all, least_lent};
use crate::job::Job;
use crate::result::{self, Contents};
use crate::shared::Shared;
use crate::turn::{Progress, Turned};

/// What a run gives back.
#[derive(Clone, Debug, PartialEq, Eq)]
pub enum Outcome {
    /// The result's bytes up to its total. "Result bytes past the total keep
    /// their values", so they are not part of it.
    Done { result: Vec<u8> },
    /// "A refusal gives the number and a place."
    Refused { number: u32, place: u32 },
}

impl Outcome {
    /// Of a call that is lent a buffer of so many bytes, and answers with a length
    /// or with number and place: a refusal has written to none of them, and those
    /// past the length keep their values.
    pub fn written(
        room: usize,
        call: impl FnOnce(&mut [u8]) -> Result<usize, (u32, usize)>,
    ) -> Outcome {
        let mut result = vec![0xA5; room];
        let told = call(&mut result);
        let kept = result.split_off(told.unwrap_or(0));
        assert!(kept.iter().all(|byte| *byte == 0xA5), "bytes past the end");
        match told {
            Ok(_) => Outcome::Done { result },
            Err((number, place)) => Outcome::Refused {
                number,
                place: place as u32,
            },
        }
    }
}

/// Checks a job and runs it, given the lengths of what is lent: the result
/// buffer in bytes, the table in rows, the working memory in bytes.
pub fn run(job: &[u8], result_len: usize, rows_len: usize, memory_len: usize) -> Outcome {
    if let Some((number, place)) = check_all(job, result_len, rows_len, memory_len) {
        return Outcome::Refused { number, place };
    }
    let job = Job::from_bytes(job);
    let mut run = Run::new(&job);
    run.deal_all(&job.turns);
    let result = result::to_bytes(&run.contents());
    assert!(result.len() <= result_len, "the result has room");
    Outcome::Done { result }
}

/// The result's bytes of a sound job that is lent no more than it must be.
pub fn result_bytes(job: &[u8]) -> Vec<u8> {
    let (room, rows, memory) = least_lent(job);
    match run(job, room, rows, memory) {
        Outcome::Done { result } => result,
        refused => panic!("a sound job with enough lent is run: {refused:?}"),
    }
}

/// A run under way. It may be dealt more turns than a job can carry; that is
/// how the tests let every operation finish.
#[derive(Clone, Debug)]
pub struct Run {
    pub shared: Shared,
    pub rows: Vec<Row>,
    /// "A turn number from 0": the number of the next turn.
    pub now: usize,
    pub waits: usize,
    pub idle: usize,
}

/// An operation with its turns: when it began and ended, and how many turns
/// it used without waiting.
#[derive(Clone, Debug)]
pub struct Row {
    pub progress: Progress,
    pub used: usize,
    pub first_turn: Option<usize>,
    pub ended_on: Option<usize>,
}

impl Run {
    /// "The turn list starts from the file as it came in, no page locked and
    /// no operation begun."
    pub fn new(job: &Job) -> Run {
        let row = |(number, operation)| Row {
            progress: Progress::new(number, operation),
            used: 0,
            first_turn: None,
            ended_on: None,
        };
        let operations = job.operations.iter().copied();
        Run {
            shared: Shared::new(job.file.clone()),
            rows: operations.enumerate().map(row).collect(),
            now: 0,
            waits: 0,
            idle: 0,
        }
    }

    /// Deals one turn.
    pub fn deal(&mut self, operation: usize) -> Turned {
        let row = &mut self.rows[operation];
        let turned = row.progress.take_turn(&mut self.shared, self.now);
        match turned {
            Turned::Idle => self.idle += 1,
            Turned::Waited => self.waits += 1,
            Turned::Did => {
                row.used += 1;
                row.first_turn.get_or_insert(self.now);
                if row.progress.finished() {
                    row.ended_on = Some(self.now);
                }
            }
        }
        self.now += 1;
        turned
    }

    /// The run after one turn more, dealt in this way. Its clock stands still:
    /// which turn it is settles moments, but no step asks for it, and by the
    /// clock no two states would be the same.
    pub fn after(&self, operation: usize, deal: impl Fn(&mut Run, usize) -> Turned) -> Run {
        let mut next = self.clone();
        deal(&mut next, operation);
        next.now = 0;
        next
    }

    /// All that the next steps depend on, as a text: directory, pages, pages in
    /// use, locks, and the next step of each operation.
    pub fn state(&self) -> String {
        let file = &self.shared.file;
        let locked = |page: &usize| self.shared.locked(*page);
        let locks: Vec<usize> = (1..=file.pages.len()).filter(locked).collect();
        let stages: Vec<_> = self.rows.iter().map(|row| &row.progress.stage).collect();
        let pages = &file.pages[..file.in_use];
        format!("{:?} {pages:?} {locks:?} {stages:?}", file.directory)
    }

    /// The turns that each operation has used.
    pub fn used(&self) -> Vec<usize> {
        self.rows.iter().map(|row| row.used).collect()
    }

    /// Deals a list of turns.
    pub fn deal_all(&mut self, turns: &[usize]) {
        for &operation in turns {
            self.deal(operation);
        }
    }

    /// "An unfinished operation can use a turn if the next turn, given to it,
    /// would not wait."
    pub fn can_use_a_turn(&self, operation: usize) -> bool {
        let progress = &self.rows[operation].progress;
        !progress.finished() && !progress.would_wait(&self.shared)
    }

    /// Operations not finished, "one not begun is unfinished".
    pub fn unfinished(&self) -> impl Iterator<Item = usize> + '_ {
        let rows = self.rows.iter().enumerate();
        rows.filter(|(_, row)| !row.progress.finished())
            .map(|(i, _)| i)
    }

    /// Operations begun but unfinished.
    pub fn under_way(&self) -> usize {
        self.unfinished()
            .filter(|i| self.rows[*i].first_turn.is_some())
            .count()
    }

    /// The answers as they stand: code 0 until the moment is known.
    pub fn answers(&self) -> Vec<Answer> {
        let answer = |row: &Row| {
            let told = row.progress.settled.map(|settled| settled.told);
            Answer {
                code: told.map_or(Code::NotYet, |told| told.code),
                page: told.map(|told| told.page),
                turns: row.used,
                charge: told.map_or(0, |told| told.charge),
            }
        };
        self.rows.iter().map(answer).collect()
    }

    /// The log as it stands, "by moment, then operation".
    pub fn log(&self) -> Vec<Line> {
        let line = |(operation, row): (usize, &Row)| {
            let moment = row.progress.settled?.moment;
            Some(Line { moment, operation })
        };
        let mut log: Vec<Line> = self.rows.iter().enumerate().filter_map(line).collect();
        log.sort();
        log
    }

    /// All that a result has. "If any operation is begun but unfinished, there
    /// is no charge file": a split may be half written then.
    pub fn contents(&self) -> Contents {
        let under_way = self.under_way();
        Contents {
            under_way,
            answers: self.answers(),
            log: self.log(),
            charge_file: (under_way == 0).then(|| Job::charge_file(&self.shared.file)),
        }
    }
}
