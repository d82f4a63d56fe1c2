//! The page with the answer, on random jobs: after every turn the page told is
//! what the file says that it must be, as it stands then and as it stood when
//! the page was read. "A list that stops early is a shorter list", so this is
//! asked of each of them.

use chargefile_tests::answer::{Answer, Code, CODES};
use chargefile_tests::asked::Asked;
use chargefile_tests::file::ChargeFile;
use chargefile_tests::job::{Job, Kind, Operation};
use chargefile_tests::make;
use chargefile_tests::page::Record;
use chargefile_tests::random::Random;
use chargefile_tests::result::answer_bytes;
use chargefile_tests::run::{result_bytes, Run};
use chargefile_tests::seeds::each_seed;
use chargefile_tests::tally::all_seen;
use chargefile_tests::turn::Stage;

const JOBS: u64 = 40_000;

/// What was met over all jobs.
#[derive(Debug, Default)]
struct Seen {
    turns: usize,
    retries: usize,
    codes: [usize; CODES.len()],
    asked: Asked,
    stored_in_a_new_page: usize,
    found_in_a_page_left: usize,
    searches_of_two_pages: usize,
    none_but_there_now: usize,
    deleted_not_at_once: usize,
    high_pages: usize,
    bytes_not_zero: usize,
    differs_elsewhere: usize,
}

impl Seen {
    fn has_everything(&self) {
        all_seen([
            ("turns", self.turns, 1_000_000),
            ("retries of inserts and deletes", self.retries, 1_000),
            ("rarest code", *self.codes.iter().min().unwrap(), 1_000),
            ("stored in a new page", self.stored_in_a_new_page, 1_000),
            ("found in a page left", self.found_in_a_page_left, 50),
            ("searches of two pages", self.searches_of_two_pages, 300),
            ("none, but there by now", self.none_but_there_now, 50),
            ("deleted after others' turns", self.deleted_not_at_once, 500),
            ("pages above 128", self.high_pages, 100),
            ("bytes not zero", self.bytes_not_zero, 20_000),
            (
                "9 on another page than the first",
                self.differs_elsewhere,
                500,
            ),
        ]);
        self.asked.all_met(200);
    }
}

/// A page as an operation read it, a search or another on its turn (d): its
/// number, the turn, and the record of the call that stood in it then.
#[derive(Clone, Copy)]
struct Reading {
    page: usize,
    turn: usize,
    record: Option<Record>,
}

/// An operation as it is followed: its answer so far, the page that its entry
/// named on its last turn, and the page that it read last.
#[derive(Clone, Copy)]
struct Followed {
    answer: Answer,
    named: usize,
    read: Option<Reading>,
}

/// The turn on which an answer is told: its number, the operation, its answer,
/// its moment, the page told and the page read last, and the file before the
/// turn and after it.
struct Telling<'a> {
    turn: usize,
    operation: Operation,
    answer: Answer,
    moment: usize,
    page: usize,
    read: Reading,
    before: &'a ChargeFile,
    after: &'a ChargeFile,
}

#[test]
fn the_page_told_is_the_page_behind_the_answer() {
    let mut seen = Seen::default();
    let whole = each_seed(JOBS, |seed| {
        let random = &mut Random::new(seed, "page claims");
        let job = make::mostly_small_job(random, seed);
        let cut = random.below(job.turns.len() + 1);
        follow(&job, cut, &mut seen);
    });
    println!("{seen:#?}");
    assert!(seen.turns > 0);
    if whole {
        seen.has_everything();
    }
}

/// Deals the turns and asks what there is to ask after each; of the list cut
/// to so many turns, and of the whole, the result's bytes are asked too.
fn follow(job: &Job, cut: usize, seen: &mut Seen) {
    let mut run = Run::new(job);
    let not_begun = |answer| Followed {
        answer,
        named: 0,
        read: None,
    };
    let mut rows: Vec<Followed> = run.answers().into_iter().map(not_begun).collect();
    for (turn, &number) in job.turns.iter().enumerate() {
        if turn == cut {
            bytes_are_as_followed(job, cut, &rows, seen);
        }
        let row = &mut rows[number];
        row.read = reading(&run, number, row.named).or(row.read);
        let before = run.shared.file.clone();
        run.deal(number);
        one_turn(job, number, (&before, &run), &mut rows, seen);
    }
    bytes_are_as_followed(job, job.turns.len(), &rows, seen);
    for (row, operation) in rows.iter().zip(&job.operations) {
        seen.codes[row.answer.code.number()] += 1;
        seen.asked.count(operation, &row.answer);
    }
    seen.turns += run.now;
    seen.retries += run.shared.tally.retries;
}

/// What the operation will read of a page on the next turn, if that is what it
/// does then: of the page that its entry named on its last turn.
fn reading(run: &Run, number: usize, named: usize) -> Option<Reading> {
    let progress = &run.rows[number].progress;
    let (Stage::ReadPage(page) | Stage::Decide(page)) = progress.stage else {
        return None;
    };
    assert_eq!(page, named, "the page read is the one that was named");
    let of_the_call = |r: &&Record| r.call == progress.operation.call;
    let records = &run.shared.file.page(page).records;
    Some(Reading {
        page,
        turn: run.now,
        record: records.iter().find(of_the_call).copied(),
    })
}

/// A turn tells the page of its own operation at most, and that once.
fn one_turn(
    job: &Job,
    number: usize,
    (before, run): (&ChargeFile, &Run),
    rows: &mut [Followed],
    seen: &mut Seen,
) {
    let (operation, after) = (job.operations[number], &run.shared.file);
    for (other, (row, answer)) in rows.iter_mut().zip(run.answers()).enumerate() {
        let was = std::mem::replace(&mut row.answer, answer);
        assert_eq!(answer.page.is_none(), answer.code == Code::NotYet);
        if other != number || was.code != Code::NotYet {
            assert_eq!((was.code, was.page), (answer.code, answer.page));
        } else if let Some(page) = answer.page {
            let settled = run.rows[number].progress.settled.unwrap();
            let telling = Telling {
                turn: run.now - 1,
                operation,
                answer,
                moment: settled.moment,
                page,
                read: row.read.expect("a page was read"),
                before,
                after,
            };
            telling.is_of_the_page();
            telling.count(seen);
        }
    }
    rows[number].named = after.page_of(operation.call);
}

impl Telling<'_> {
    /// The page that the call's entry names now.
    fn named(&self) -> usize {
        self.after.page_of(self.operation.call)
    }

    /// The call at the answer's charge.
    fn record(&self) -> Record {
        let (call, charge) = (self.operation.call, self.answer.charge);
        Record { call, charge }
    }

    /// Whether the page told has the call at the answer's charge.
    fn holds(&self, file: &ChargeFile) -> bool {
        file.page(self.page).records.contains(&self.record())
    }

    /// Whether the page told has the call, at whatever charge.
    fn has(&self, file: &ChargeFile) -> bool {
        file.page(self.page).calls().contains(&self.operation.call)
    }

    fn is_of_the_page(&self) {
        let in_use = 1..=self.after.in_use;
        assert!(in_use.contains(&self.page), "a page in use");
        if self.answer.code != Code::Stored {
            assert_eq!(self.page, self.read.page, "the page read last");
        }
        // A search may find its call where the entry no longer leads.
        if self.answer.code != Code::Found {
            assert_eq!(self.page, self.named(), "its entry names it");
        }
        self.is_of_the_reading();
        self.is_of_the_file();
    }

    /// What the page had of the call when it was read, and when that was: on
    /// the turn that tells, or on an earlier one.
    fn is_of_the_reading(&self) {
        let (there, missing) = (Some(self.record()), None);
        let (at_once, had) = match self.answer.code {
            Code::Found | Code::AlreadyThere | Code::Differs => (true, there),
            Code::Absent | Code::NoDepth | Code::NoPage => (true, missing),
            // These two are told when something has been written.
            Code::Deleted => (false, there),
            Code::Stored => (false, missing),
            // And this when the entry has been read again.
            Code::None => (false, missing),
            Code::NotYet => unreachable!("code 0 tells no page"),
        };
        assert_eq!(self.read.turn == self.turn, at_once);
        assert_eq!(self.read.record, had, "when the page was read");
        match self.answer.code {
            Code::None => assert_eq!(self.moment, self.read.turn),
            // Its entry had left the page.
            Code::Found if self.named() != self.page => assert!(self.moment < self.turn),
            _ => assert_eq!(self.moment, self.turn),
        }
    }

    /// What the page has of the call on the turn that tells.
    fn is_of_the_file(&self) {
        match self.answer.code {
            Code::NotYet | Code::Found | Code::None => (),
            Code::Stored => {
                assert_eq!(self.answer.charge, self.operation.charge);
                assert!(self.holds(self.after));
            }
            Code::AlreadyThere => assert!(self.holds(self.after)),
            Code::Differs => {
                assert!(self.holds(self.after));
                assert_eq!(self.before, self.after, "nothing changes");
            }
            Code::Deleted => assert!(self.holds(self.before) && !self.has(self.after)),
            Code::Absent => assert!(!self.has(self.after)),
            Code::NoDepth | Code::NoPage => {
                let full = self.after.page(self.page).records.len() == self.after.capacity;
                assert!(full && !self.has(self.after), "there was no room in it");
            }
        }
    }

    fn count(&self, seen: &mut Seen) {
        let code = self.answer.code;
        let new = code == Code::Stored && self.read.page != self.page;
        let left = code == Code::Found && self.named() != self.page;
        // A search of one page has taken two turns, or three for "none".
        let again = self.operation.kind == Kind::Search && self.answer.turns > 3;
        let there_now = code == Code::None && self.has(self.after);
        let later = code == Code::Deleted && self.read.turn + 1 < self.turn;
        seen.stored_in_a_new_page += usize::from(new);
        seen.found_in_a_page_left += usize::from(left);
        seen.searches_of_two_pages += usize::from(again);
        seen.none_but_there_now += usize::from(there_now);
        seen.deleted_not_at_once += usize::from(later);
        seen.high_pages += usize::from(self.page > 128);
        seen.differs_elsewhere += usize::from(code == Code::Differs && self.page > 1);
    }
}

/// The result of so many turns has the pages told by then, less one, and a
/// zero byte with each code 0.
fn bytes_are_as_followed(job: &Job, turns: usize, rows: &[Followed], seen: &mut Seen) {
    let mut job = job.clone();
    job.turns.truncate(turns);
    let result = result_bytes(&job.to_bytes());
    assert_eq!(result[..2], [2, 0], "the result's version");
    for (bytes, row) in answer_bytes(&result, rows.len()).zip(rows) {
        assert_eq!(usize::from(bytes[0]), row.answer.code.number());
        match row.answer.page {
            Some(page) => assert_eq!(usize::from(bytes[1]) + 1, page),
            None => assert_eq!(bytes[..2], [0, 0]),
        }
        seen.bytes_not_zero += usize::from(bytes[1] > 0);
    }
}
