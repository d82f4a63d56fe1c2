//! Machines that are wrong on purpose, each by one step: under them rounds of turns do not come to what is said of them, and what asks after each round
//! whether it did its part says so. The right machine passes with the same jobs.

mod every_round;

use std::ops::Range;

use chargefile_tests::by_hand::{self, delete, delete_at, insert, search, CALLS_BY_FIRST_BITS};
use chargefile_tests::job::Job;
use chargefile_tests::rounds::{deal_rounds, enough, is_round, Deal, Dealer, Wrong, DEALERS};
use chargefile_tests::run::Run;
use chargefile_tests::turn::{Stage, Turned};
use every_round::most_rounds;

/// Deals a turn and locks again, for this operation, what the turn has unlocked.
fn without_unlocking(run: &mut Run, operation: usize) -> Turned {
    let pages = 1..=run.shared.file.pages.len();
    let locked: Vec<usize> = pages.filter(|page| run.shared.locked(*page)).collect();
    let turned = run.deal(operation);
    for page in locked {
        if !run.shared.locked(page) {
            run.shared.lock(page, operation);
        }
    }
    turned
}

/// How many steps an operation has left, once it has decided.
fn steps_left(run: &Run, operation: usize) -> Option<usize> {
    match &run.rows[operation].progress.stage {
        Stage::CarryOut(steps) => Some(steps.len()),
        _ => None,
    }
}

/// The last unlocking of an operation does not free its page.
fn keeps_the_lock_at_the_end(run: &mut Run, operation: usize) -> Turned {
    match steps_left(run, operation) {
        Some(1) => without_unlocking(run, operation),
        _ => run.deal(operation),
    }
}

/// "Its duplicate answer keeps the lock. Here it is released." As the paper has it: one that is told at turn (d) what it comes to.
fn keeps_the_lock_of_a_duplicate(run: &mut Run, operation: usize) -> Turned {
    let told = run.rows[operation].progress.settled;
    let duplicate = told.is_some_and(|settled| settled.told.code.number() == 4);
    match steps_left(run, operation) {
        Some(1) if duplicate => without_unlocking(run, operation),
        _ => run.deal(operation),
    }
}

/// A retry goes for the page just read, and the page held stays locked.
fn forgets_to_release(run: &mut Run, operation: usize) -> Turned {
    match run.rows[operation].progress.stage {
        Stage::LetGo { .. } => without_unlocking(run, operation),
        _ => run.deal(operation),
    }
}

/// The new pages of a split are never unlocked.
fn keeps_the_new_pages(run: &mut Run, operation: usize) -> Turned {
    match steps_left(run, operation) {
        Some(3) => without_unlocking(run, operation),
        _ => run.deal(operation),
    }
}

/// Lets go of its page and locks it again, though its entry names this page.
fn goes_round_for_ever(run: &mut Run, operation: usize) -> Turned {
    let turned = run.deal(operation);
    let stage = &mut run.rows[operation].progress.stage;
    if let Stage::Decide(page) = *stage {
        *stage = Stage::LetGo {
            held: page,
            next: page,
        };
    }
    turned
}

/// Lets go of its page twice and locks it again, and only then goes on.
fn goes_round_twice(run: &mut Run, operation: usize) -> Turned {
    let turned = run.deal(operation);
    let row = &mut run.rows[operation];
    if let (Stage::Decide(page), 3 | 6) = (&row.progress.stage, row.used) {
        row.progress.stage = Stage::LetGo {
            held: *page,
            next: *page,
        };
    }
    turned
}

/// A search waits for a page that is locked.
fn searches_wait(run: &mut Run, operation: usize) -> Turned {
    match run.rows[operation].progress.stage {
        Stage::ReadPage(page) if run.shared.locked(page) => {
            run.now += 1;
            run.waits += 1;
            Turned::Waited
        }
        _ => run.deal(operation),
    }
}

/// A turn of a finished operation lets it begin anew.
fn begins_anew(run: &mut Run, operation: usize) -> Turned {
    let progress = &mut run.rows[operation].progress;
    if progress.finished() {
        progress.stage = Stage::NotBegun;
        progress.settled = None;
    }
    run.deal(operation)
}

/// Three that want one page, and none of them splits it.
fn at_one_page() -> Job {
    let file = by_hand::one_page(&[(2, 50)]);
    by_hand::job(&file, &[delete_at(2, 1), insert(2, 10), delete(3)], &[])
}

/// A page full of calls whose pseudo key begins with 1. The first and the last operation begin with 0: whichever has the page first splits it, and then
/// the three others find their entry changed, unless they were sooner.
fn one_splits() -> Job {
    let [zeros, .., ones] = CALLS_BY_FIRST_BITS;
    let file = by_hand::one_page(&[(ones[0], 50), (ones[1], 60)]);
    let operations = [
        insert(zeros[0], 10),
        delete(ones[2]),
        delete_at(ones[1], 1),
        insert(ones[0], 30),
        insert(zeros[1], 20),
    ];
    by_hand::job(&file, &operations, &[])
}

/// Deals rounds by a machine that gets stuck. The checks say so after the first round in which nobody used a turn; and nobody can use one ever, so that
/// as many rounds more as are enough change nothing.
fn gets_stuck(job: &Job, dealer: Dealer, wrong: Deal) {
    let told = deal_rounds(job, dealer, wrong);
    let Err(Wrong::NobodyUsedATurn(rounds)) = told else {
        panic!("{dealer:?}: {told:?}");
    };
    let mut run = Run::new(job);
    let deal_more = |run: &mut Run, numbers: Range<usize>| {
        for number in numbers {
            let round = dealer.next_round(run, number, wrong);
            assert!(is_round(run, &round));
            for operation in round {
                wrong(run, operation);
            }
        }
    };
    deal_more(&mut run, 0..rounds - 1);
    let left: Vec<usize> = run.unfinished().collect();
    assert!(!left.is_empty());
    assert!(left.iter().all(|operation| !run.can_use_a_turn(*operation)));
    deal_more(&mut run, rounds - 1..rounds + enough(job));
    assert!(run.unfinished().eq(left));
}

/// The right machine finishes the job with every dealer.
fn the_right_one_passes(job: &Job) {
    for dealer in DEALERS {
        assert!(deal_rounds(job, dealer, Run::deal).is_ok(), "{dealer:?}");
    }
    assert!(most_rounds(job, Run::deal).is_some());
}

/// These dealers see it, and so does the search through all states: some list leads to where nobody can go on.
fn all_get_stuck(job: &Job, wrong: Deal, dealers: &[Dealer]) {
    the_right_one_passes(job);
    for dealer in dealers {
        gets_stuck(job, *dealer, wrong);
    }
    assert_eq!(most_rounds(job, wrong), None);
}

#[test]
fn a_lock_kept_at_the_end() {
    all_get_stuck(&at_one_page(), keeps_the_lock_at_the_end, &DEALERS);
    all_get_stuck(&one_splits(), keeps_the_lock_at_the_end, &DEALERS);
}

#[test]
fn a_lock_kept_by_a_duplicate() {
    all_get_stuck(&at_one_page(), keeps_the_lock_of_a_duplicate, &DEALERS);
}

#[test]
fn a_retry_that_forgets_to_release() {
    // where one gets ahead, the others read their entries when it has changed them
    let mut dealers = DEALERS.to_vec();
    dealers.retain(|dealer| *dealer != Dealer::OneAhead);
    all_get_stuck(&one_splits(), forgets_to_release, &dealers);
    // nobody's entry changes there
    assert!(most_rounds(&at_one_page(), forgets_to_release).is_some());
}

#[test]
fn new_pages_that_stay_locked() {
    all_get_stuck(&one_splits(), keeps_the_new_pages, &DEALERS);
}

/// Somebody uses a turn in each round, and still no number of them is enough.
#[test]
fn going_round_for_ever() {
    for job in [at_one_page(), one_splits()] {
        for dealer in DEALERS {
            let told = deal_rounds(&job, dealer, goes_round_for_ever).err();
            assert_eq!(told, Some(Wrong::NotEnough(enough(&job))), "{dealer:?}");
        }
    }
}

/// A delete that uses 12 turns at depth 1, and so 12 rounds. That is enough, as it is said; but no delete uses more than 9.
#[test]
fn going_round_twice() {
    let mut job = at_one_page();
    job.operations = vec![delete(2)];
    the_right_one_passes(&job);
    let told = deal_rounds(&job, Dealer::Rising, goes_round_twice).err();
    assert_eq!((told, enough(&job)), (Some(Wrong::MoreThanUsed(12)), 12));
}

/// All are finished in the end, within the rounds that are enough; but the search had to be sooner.
#[test]
fn a_search_that_waits() {
    let mut job = one_splits();
    let [.., ones] = CALLS_BY_FIRST_BITS;
    job.operations.push(search(ones[3]));
    the_right_one_passes(&job);
    let told = deal_rounds(&job, Dealer::Rising, searches_wait).err();
    assert_eq!(told, Some(Wrong::SearchUnfinished(5)));
    job.operations.pop();
    assert!(deal_rounds(&job, Dealer::Rising, searches_wait).is_ok());
}

/// The dealers that name the finished ones see it.
#[test]
fn a_finished_one_that_begins_anew() {
    let job = at_one_page();
    the_right_one_passes(&job);
    for dealer in [Dealer::Wasteful, Dealer::Everyone, Dealer::EveryoneFalling] {
        let told = deal_rounds(&job, dealer, begins_anew).err();
        assert!(
            matches!(told, Some(Wrong::Undone(_))),
            "{dealer:?} {told:?}"
        );
    }
    assert!(deal_rounds(&job, Dealer::Rising, begins_anew).is_ok());
}
