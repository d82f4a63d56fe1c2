//! "Delete only at this charge", on random jobs: every delete is followed turn by
//! turn, with what the file has of its call when it begins, on turn (d) and when
//! the page is written. Half of the jobs have few calls at few charges.

use chargefile_tests::answer::{Answer, Code};
use chargefile_tests::asked::Asked;
use chargefile_tests::file::ChargeFile;
use chargefile_tests::job::{Job, Kind, Operation};
use chargefile_tests::make;
use chargefile_tests::make_few_calls;
use chargefile_tests::page::Page;
use chargefile_tests::random::Random;
use chargefile_tests::run::Run;
use chargefile_tests::seeds::each_seed;
use chargefile_tests::tally::all_seen;
use chargefile_tests::turn::{Stage, Turned};

const JOBS: u64 = 30_000;

/// What was met over all jobs.
#[derive(Debug, Default)]
struct Seen {
    asked: Asked,
    jobs: usize,
    jobs_with_a_9: usize,
    /// Where a call was struck out at just the charge asked for.
    jobs_with_an_equal: usize,
    differs_after_a_retry: usize,
    equal_after_a_retry: usize,
    /// How the call stood when the delete began, and then on turn (d): at the
    /// charge asked for, at another, or missing.
    equal_then_differs: usize,
    other_then_equal: usize,
    missing_then_differs: usize,
    /// A 9 on a page that others wait for.
    awaited_by_others: usize,
    /// Others took turns between turn (d) and the writing.
    others_before_write: usize,
}

impl Seen {
    fn has_everything(&self) {
        all_seen([
            ("jobs with a 9", self.jobs_with_a_9, 3_000),
            ("jobs with an equal", self.jobs_with_an_equal, 3_000),
            ("9 after a retry", self.differs_after_a_retry, 100),
            ("equal after a retry", self.equal_after_a_retry, 100),
            ("equal, then 9", self.equal_then_differs, 100),
            ("another, then equal", self.other_then_equal, 100),
            ("missing, then 9", self.missing_then_differs, 100),
            ("9, others wait", self.awaited_by_others, 500),
            ("others before the write", self.others_before_write, 1_000),
        ]);
        self.asked.all_met(1_000);
    }
}

/// What a delete has decided on its turn (d): the turn, and the page as it was
/// read, with its number.
#[derive(Clone)]
struct Decided {
    turn: usize,
    number: usize,
    page: Page,
    /// The charge of the call there, if it is there.
    held: Option<u32>,
}

/// A delete as it is followed: the charge of its call when it took its first
/// turn, if it was there, and what it has decided.
#[derive(Clone, Default)]
struct Followed {
    at_first: Option<Option<u32>>,
    decided: Option<Decided>,
}

/// The charge of a call in the page that its entry names.
fn held(file: &ChargeFile, call: u32) -> Option<u32> {
    let records = &file.page(file.page_of(call)).records;
    let found = records.iter().find(|record| record.call == call);
    found.map(|record| record.charge)
}

#[test]
fn a_delete_goes_by_the_charge_of_turn_d() {
    let mut seen = Seen::default();
    let whole = each_seed(JOBS, |seed| {
        let random = &mut Random::new(seed, "delete claims");
        let job = if seed % 2 == 0 {
            make_few_calls::job(random)
        } else {
            make::mostly_small_job(random, seed / 2)
        };
        follow(&job, &mut seen);
    });
    println!("{seen:#?}");
    assert!(seen.jobs > 0);
    if whole {
        seen.has_everything();
    }
}

fn follow(job: &Job, seen: &mut Seen) {
    let mut run = Run::new(job);
    let mut rows = vec![Followed::default(); job.operations.len()];
    for &number in &job.turns {
        if job.operations[number].kind == Kind::Delete {
            one_turn(job, number, &mut run, &mut rows[number], seen);
        } else {
            run.deal(number);
        }
    }
    count(job, &run.answers(), seen);
}

fn count(job: &Job, answers: &[Answer], seen: &mut Seen) {
    let mut met = Asked::default();
    for (operation, answer) in job.operations.iter().zip(answers) {
        met.count(operation, answer);
    }
    seen.asked.add(&met);
    seen.jobs += 1;
    seen.jobs_with_a_9 += usize::from(met.different + met.other_of_zero > 0);
    seen.jobs_with_an_equal += usize::from(met.equal > 0);
}

/// Deals a delete a turn. By its stage it decides, or carries out what it has
/// decided, or it does neither and has no answer yet.
fn one_turn(job: &Job, number: usize, run: &mut Run, row: &mut Followed, seen: &mut Seen) {
    let operation = job.operations[number];
    let before = run.shared.file.clone();
    row.at_first.get_or_insert(held(&before, operation.call));
    let deciding = match run.rows[number].progress.stage {
        Stage::Decide(page) => Some(page),
        _ => None,
    };
    let turn = run.now;
    let turned = run.deal(number);
    let answer = run.answers()[number];
    if let Some(page) = deciding {
        row.decided = Some(Decided {
            turn,
            number: page,
            page: before.page(page).clone(),
            held: held(&before, operation.call),
        });
        assert_eq!(run.shared.file, before, "turn (d) of a delete");
        decides(&operation, number, run, row, seen);
    } else if let Some(decided) = &row.decided {
        match (turned, run.rows[number].progress.finished()) {
            (Turned::Idle, _) => (),
            (_, false) => writes(&operation, number, (&before, run), decided, seen),
            (_, true) => assert_eq!(run.shared.file, before, "unlocks"),
        }
        assert!(answer.code != Code::NotYet);
        let deleted = answer.code == Code::Deleted;
        assert_eq!(deleted, strikes(&operation, decided));
    } else {
        assert_eq!(run.shared.file, before, "before turn (d)");
        assert_eq!(answer.code, Code::NotYet);
    }
    let ended = run.rows[number].progress.finished();
    assert!(!ended || run.shared.locked_by(number) == 0);
}

/// Whether the call was there on turn (d), and was to be struck out.
fn strikes(operation: &Operation, decided: &Decided) -> bool {
    let asked = operation.charge;
    decided.held.is_some_and(|held| [0, held].contains(&asked))
}

/// "Where the call is there at another charge, the answer is 9 ... with the
/// file's charge, its moment is turn (d)". The page stays locked.
fn decides(operation: &Operation, number: usize, run: &Run, row: &Followed, seen: &mut Seen) {
    let decided = row.decided.as_ref().expect("it has just decided");
    let answer = run.answers()[number];
    assert_eq!(run.shared.locked_by(number), 1);
    let moment = run.rows[number].progress.settled.map(|s| s.moment);
    let to_be_struck = strikes(operation, decided);
    let wanted = match decided.held {
        _ if to_be_struck => (Code::NotYet, 0, None, None),
        Some(held) => (
            Code::Differs,
            held,
            Some(decided.number),
            Some(decided.turn),
        ),
        None => (Code::Absent, 0, Some(decided.number), Some(decided.turn)),
    };
    assert_eq!((answer.code, answer.charge, answer.page, moment), wanted);
    let (asked, at_first) = (operation.charge, row.at_first.expect("begun"));
    // Without a retry (d) is the fourth turn.
    let retried = answer.turns > 4;
    if answer.code == Code::Differs {
        let waits = |i: usize| i != number && awaits(run, i, decided.number);
        seen.awaited_by_others += usize::from((0..run.rows.len()).any(waits));
        seen.differs_after_a_retry += usize::from(retried);
        seen.equal_then_differs += usize::from(at_first == Some(asked));
        seen.missing_then_differs += usize::from(at_first.is_none());
    } else if to_be_struck && asked != 0 {
        seen.equal_after_a_retry += usize::from(retried);
        let other = at_first.is_some_and(|held| held != asked);
        seen.other_then_equal += usize::from(other);
    }
}

/// Whether an operation would lock this page with its next step.
fn awaits(run: &Run, number: usize, page: usize) -> bool {
    run.rows[number].progress.stage == Stage::Lock(page)
}

/// A delete that decided to strike out does so with its next step, whatever the
/// others did in between: the page is as it was on turn (d), and nothing else of
/// the file changes.
fn writes(
    operation: &Operation,
    number: usize,
    (before, run): (&ChargeFile, &Run),
    decided: &Decided,
    seen: &mut Seen,
) {
    assert_eq!(*before.page(decided.number), decided.page, "it was held");
    let mut wanted = before.clone();
    let records = &mut wanted.page_mut(decided.number).records;
    records.retain(|record| record.call != operation.call);
    assert_eq!(records.len() + 1, decided.page.records.len());
    assert_eq!(run.shared.file, wanted);
    let answer = run.answers()[number];
    let settled = run.rows[number].progress.settled.expect("its moment");
    assert_eq!(Some(answer.charge), decided.held);
    assert_eq!(answer.page, Some(decided.number));
    assert_eq!(settled.moment, run.now - 1, "the page writing");
    let others_turns = settled.moment > decided.turn + 1;
    seen.others_before_write += usize::from(others_turns);
}
