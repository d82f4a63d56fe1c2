//! "No operation of an accepted job, whatever its list, uses more than 294 (depth 8)." "No search uses more than 2g + 3 turns, and no other operation more
//! than 2^g + 4g + 6 that are not waiting. The counts are those in the result."
//!
//! What is said of a whole list is asked after each of its turns too: a list that stops early is a shorter list.

mod counted;
mod every_list;
mod linked;

use chargefile_tests::bounds::{
    kinds_at, reached, said, with_split, Held, AT_ANY_DEPTH, DEPTHS, KINDS,
};
use chargefile_tests::by_hand::{self, delete, delete_at, insert, search};
use chargefile_tests::job::{
    Job, Kind, Operation, MAX_CAPACITY, MAX_DEPTH, MAX_OPERATIONS, MAX_TURNS,
};
use chargefile_tests::make;
use chargefile_tests::make_most_turns::{
    counted_only, misleading_turns, misleading_turns_by_chance, misled, to_the_longest, waiting,
    wide, Home,
};
use chargefile_tests::random::Random;
use chargefile_tests::result::answer_bytes;
use chargefile_tests::seeds::{each_seed, few_seeds};
use chargefile_tests::tally::all_seen;
use chargefile_tests::vectors;
use chargefile_tests::Outcome;
use counted::{by_both, counts, cut_at_every_turn, tell_the_same, watched};
use every_list::every_list;

/// Random jobs, and those that the library runs once for each place where their list can stop.
const JOBS: u64 = 1_500;
const CUT: u64 = 500;

/// Search, insert, delete: what is said, what is reached.
#[test]
fn the_bounds_by_hand() {
    let at = |depth| KINDS.map(|kind| (said(kind, depth), reached(kind, depth)));
    assert_eq!(at(0), [(3, 3), (7, 6), (7, 6)]);
    assert_eq!(at(1), [(5, 5), (12, 9), (12, 9)]);
    assert_eq!(at(2), [(7, 7), (18, 12), (18, 12)]);
    assert_eq!(at(5), [(13, 13), (58, 43), (58, 21)]);
    assert_eq!(at(8), [(19, 19), (294, 270), (294, 30)]);
    for (kind, depth) in kinds_at(&DEPTHS) {
        assert!(reached(kind, depth) <= said(kind, depth));
        assert!(said(kind, depth) <= AT_ANY_DEPTH);
    }
}

/// What the last operations of a job use: the searches, the deletes, and the insert that finds room behind them.
fn misled_counts(depth: u32, capacity: usize, searches: usize) -> Vec<usize> {
    let g = depth as usize;
    let mut counts = vec![2 * g + 3; searches];
    counts.extend(vec![3 * g + 6; capacity + 1]);
    counts
}

/// With one search, and with as many as a job has room for.
#[test]
fn searches_and_deletes_reach_the_most() {
    let mut held = Held::default();
    for depth in DEPTHS {
        for capacity in 1..=MAX_CAPACITY {
            let room = MAX_OPERATIONS - depth as usize - capacity - 1;
            for searches in [1, room] {
                let job = misled(depth, capacity, searches);
                let (run, told) = watched(&job);
                let wanted = misled_counts(depth, capacity, searches);
                assert_eq!(told[depth as usize..], wanted);
                assert_eq!((run.waits, run.idle), (0, 0));
                held.hold_all(&job, &told);
            }
        }
        for kind in [Kind::Search, Kind::Delete] {
            assert_eq!(held.most(kind, depth), reached(kind, depth));
        }
    }
    held.all_met(&DEPTHS, 8);
}

/// How often the entry of a wide split's call changes before, and where the call goes.
fn wide_splits(depth: u32) -> impl Iterator<Item = (u32, Home)> {
    (0..depth).flat_map(|retries| [Home::Old, Home::New].map(|home| (retries, home)))
}

/// With r retries, fewer than g, an insert can still use 2^(g - r) + g + 2r + 6; that is most without any.
#[test]
fn inserts_reach_the_most() {
    let mut held = Held::default();
    for depth in DEPTHS {
        for capacity in 1..=MAX_CAPACITY {
            for (retries, home) in wide_splits(depth) {
                let job = wide(depth, capacity, retries, home);
                let (run, told) = watched(&job);
                let last = told[retries as usize];
                assert_eq!(last, with_split(depth, retries), "{retries} retries");
                let new_pages = run.shared.tally.largest_split as u32;
                assert_eq!(new_pages, depth - retries, "the largest n is g - l");
                held.hold_all(&job, &told);
            }
        }
    }
    // no page can be split there: an insert that finds room
    let job = misled(0, 1, 1);
    held.hold_all(&job, &watched(&job).1);
    for depth in DEPTHS {
        assert_eq!(held.most(Kind::Insert, depth), reached(Kind::Insert, depth));
    }
}

/// A job of the first g operations of another, and one that they mislead.
fn with_last(from: &Job, last: Operation) -> Job {
    let mut job = from.clone();
    job.operations.truncate(from.file.depth as usize);
    job.operations.push(last);
    let order: Vec<usize> = (0..job.operations.len()).collect();
    job.turns = misleading_turns(&job, &order);
    job
}

/// Code and turns used of a job's last operation.
fn last_answer(job: &Job) -> (u8, usize) {
    let (_, used) = watched(job);
    let result = by_both(job);
    let answer = answer_bytes(&result, used.len()).last().expect("answers");
    (answer[0], used[used.len() - 1])
}

/// Each answer behind as many retries as there can be.
#[test]
fn every_answer_behind_the_most_retries() {
    for depth in DEPTHS {
        let (g, from) = (depth as usize, misled(depth, 1, 0));
        let [held, missing] = [g, g + 1].map(|operation| from.operations[operation].call);
        for (last, code, used) in [
            (search(held), by_hand::FOUND, 2 * g + 2),
            (search(missing), by_hand::NONE, 2 * g + 3),
            (delete(held), by_hand::DELETED, 3 * g + 6),
            (delete(missing), by_hand::ABSENT, 3 * g + 5),
            (delete_at(held, 1), by_hand::DIFFERS, 3 * g + 5),
            (insert(held, 1), by_hand::ALREADY_THERE, 3 * g + 5),
            (insert(missing, 1), by_hand::NO_DEPTH, 3 * g + 5),
        ] {
            let told = last_answer(&with_last(&from, last));
            assert_eq!(told, (code, used), "{last:?} at depth {depth}");
        }
        // a page that can still be split, and none left for it
        for retries in 0..g {
            let mut job = wide(depth, 1, retries as u32, Home::Old);
            job.file.pages.truncate(retries + 1);
            let order: Vec<usize> = (0..=retries).collect();
            job.turns = misleading_turns(&job, &order);
            assert_eq!(last_answer(&job), (by_hand::NO_PAGE, 3 * retries + 5));
        }
    }
}

#[test]
fn the_library_tells_each_turn_of_the_most() {
    let (mut held, mut counted) = (Held::default(), 0);
    for depth in DEPTHS {
        let mut jobs = vec![misled(depth, 1, 1), misled(depth, 3, 2)];
        jobs.extend((0..depth).map(|retries| wide(depth, 2, retries, Home::New)));
        for job in jobs {
            counted += cut_at_every_turn(&job, &mut held);
        }
        for kind in KINDS {
            assert_eq!(held.most(kind, depth), reached(kind, depth));
        }
    }
    assert!(counted > 5_000, "turns counted: {counted}");
}

/// Every list there is, of any length: no state has a count above the bounds, and at each of these depths some state has the most of each kind.
#[test]
fn every_list_of_small_jobs() {
    let mut held = Held::default();
    let mut hold = |job: &Job| held.hold_all(job, &every_list(job).most);
    for depth in 0..=3 {
        let whole = misled(depth, 1, 1);
        if depth < 2 {
            hold(&whole);
        }
        // at the other depths all of them together have too many states
        for last in &whole.operations[depth as usize..] {
            hold(&with_last(&whole, *last));
        }
        for (retries, home) in wide_splits(depth) {
            hold(&wide(depth, 1, retries, home));
        }
    }
    for (kind, depth) in kinds_at(&DEPTHS[..=3]) {
        assert_eq!(held.most(kind, depth), reached(kind, depth), "{kind:?}");
    }
}

/// The same bounds for jobs of chance, with three operations.
#[test]
fn every_list_of_random_jobs() {
    let (mut held, mut states) = (Held::default(), 0);
    let whole = few_seeds(1_000, |seed| {
        let mut job = make::small_job(&mut Random::new(seed, "every list"));
        job.operations.truncate(3);
        if job.file.depth <= 3 {
            let lists = every_list(&job);
            held.hold_all(&job, &lists.most);
            states += lists.states;
        }
    });
    if whole {
        held.all_met(&DEPTHS[..=3], 10);
        assert!(states > 20_000, "{states} states");
    }
}

/// The counts in the stored results, which both come to; the same jobs cut at every turn; and with the longest list.
#[test]
fn stored_vectors() {
    let (mut held, mut bounds, mut cut) = (Held::default(), Held::default(), Held::default());
    for vector in vectors::all() {
        let Outcome::Done { result } = &vector.wanted else {
            continue;
        };
        println!("{}", vector.name);
        let mut job = Job::from_bytes(&vector.job);
        let told = counts(result, &job);
        assert_eq!(watched(&job).1, told);
        held.hold_all(&job, &told);
        if vector.name.starts_with("11-bounds/") {
            bounds.hold_all(&job, &told);
        }
        if job.turns.len() < 600 {
            cut_at_every_turn(&job, &mut cut);
        }
        let random = &mut Random::new(0, &vector.name);
        job.turns = to_the_longest(random, &job, job.turns.clone());
        held.hold_all(&job, &watched(&job).1);
    }
    // no stored job of depth 6 is run
    for met in [held, cut] {
        met.all_met(&[0, 1, 2, 3, 4, 5, 7, 8], 1);
    }
    // those of the bounds have five depths, and at depth 0 no insert
    let depths = [0, 1, 2, 5, 8];
    for (kind, depth) in kinds_at(&depths).filter(|met| *met != (Kind::Insert, 0)) {
        assert_eq!(bounds.most(kind, depth), reached(kind, depth), "{kind:?}");
    }
}

/// A random job: as it is made, or with a list as long as a job can carry, the turns by chance or such that the operations mislead each other.
fn random_job(seed: u64) -> Job {
    let random = &mut Random::new(seed, "most turns");
    let mut job = make::job(random);
    match seed % 3 {
        0 => {}
        1 => job.turns = to_the_longest(random, &job, job.turns.clone()),
        _ => job.turns = misleading_turns_by_chance(random, &job),
    }
    job
}

/// Besides, a list without its turns that wait and those of finished operations comes to the same answers, and has as many turns as these used.
#[test]
fn random_jobs() {
    let (mut held, mut longest, mut waits, mut idle) = (Held::default(), 0, 0, 0);
    let whole = each_seed(JOBS, |seed| {
        let job = random_job(seed);
        let (run, told) = watched(&job);
        held.hold_all(&job, &told);
        let counted = counted_only(&job);
        assert_eq!(tell_the_same(&counted, &job), told);
        assert_eq!(told.iter().sum::<usize>(), counted.turns.len());
        longest += usize::from(job.turns.len() == MAX_TURNS);
        waits += run.waits;
        idle += run.idle;
    });
    if whole {
        held.all_met(&DEPTHS, 100);
        all_seen([
            ("longest lists", longest, 900),
            ("waits", waits, 100_000),
            ("turns of finished operations", idle, 1_000_000),
        ]);
        // more than any uses whose entry does not change and whose page is not split
        for depth in 1..=MAX_DEPTH as u32 {
            let most = KINDS.map(|kind| held.most(kind, depth));
            assert!(most[0] >= 5 && most[1] >= 9 && most[2] >= 9, "{most:?}");
        }
    }
}

#[test]
fn the_library_tells_each_turn_of_random_jobs() {
    let (mut held, mut turns, mut counted) = (Held::default(), 0, 0);
    let whole = few_seeds(CUT, |seed| {
        let random = &mut Random::new(seed, "most turns cut");
        let mut job = make::job(random);
        job.turns.truncate(random.below(150));
        counted += cut_at_every_turn(&job, &mut held);
        turns += job.turns.len();
    });
    if whole {
        held.all_met(&DEPTHS, 100);
        all_seen([
            ("turns counted", counted, 5_000),
            ("turns not counted", turns - counted, 5_000),
        ]);
    }
}

/// Puts as many turns into the list on which an operation waits as a job can carry: nobody uses another number of turns. Gives back what it uses.
fn waits_for_thousands(job: &Job, operation: usize) -> usize {
    let waiting = waiting(job, operation);
    assert_eq!(waiting.turns.len(), MAX_TURNS);
    let (run, _) = watched(&waiting);
    assert_eq!(run.waits, MAX_TURNS - job.turns.len());
    assert_eq!((run.idle, run.unfinished().count()), (0, 0));
    assert!(run.waits > 10_000, "{} waits", run.waits);
    assert_eq!(counted_only(&waiting), *job, "without these turns");
    tell_the_same(&waiting, job)[operation]
}

/// A delete and an insert that wait for the page of another delete.
#[test]
fn waits_for_a_delete_are_not_counted() {
    for depth in DEPTHS {
        let (g, job) = (depth as usize, misled(depth, 2, 1));
        for last in [g + 2, g + 3] {
            assert_eq!(waits_for_thousands(&job, last), 3 * g + 6);
        }
    }
}

/// An insert that waits for those that split its page, and one that waits for another which finds its call there; both then split their page as often as
/// can be.
#[test]
fn waits_for_an_insert_are_not_counted() {
    for depth in 1..=MAX_DEPTH as u32 {
        for retries in 1..depth {
            let job = wide(depth, 2, retries, Home::Old);
            let used = waits_for_thousands(&job, retries as usize);
            assert_eq!(used, with_split(depth, retries));
        }
        let mut job = wide(depth, 2, 0, Home::New);
        let held = job.file.page(1).calls()[1];
        job.operations.push(insert(held, 1));
        job.turns = misleading_turns(&job, &[1, 0]);
        assert_eq!(waits_for_thousands(&job, 0), reached(Kind::Insert, depth));
    }
}
