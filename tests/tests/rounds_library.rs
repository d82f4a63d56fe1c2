//! "m × (2^g + 4g + 6) rounds finish them all. ... No search uses more than 2g + 3 turns, and no other operation more than 2^g + 4g + 6 that are not
//! waiting. The counts are those in the result."
//!
//! Lists made of rounds, put into jobs that the library runs: each operation has its answer, and there is a charge file.

mod counted;
mod linked;

use chargefile_tests::bounds::{Held, DEPTHS};
use chargefile_tests::job::{Job, Kind, MAX_CAPACITY, MAX_TURNS};
use chargefile_tests::little_endian::{four_at, two_at};
use chargefile_tests::make;
use chargefile_tests::make_most_turns::misled;
use chargefile_tests::make_rounds::{
    contended_by, contended_of_each, hotel_of_forty, of_the_most_turns, stored,
};
use chargefile_tests::random::Random;
use chargefile_tests::result::answer_bytes;
use chargefile_tests::rounds::{
    deal_rounds, enough, is_round, rounds_in, sure_rounds, Dealt, DEALERS,
};
use chargefile_tests::run::Run;
use chargefile_tests::seeds::few_seeds;
use chargefile_tests::tally::all_seen;
use counted::{by_both, counts};

/// Random jobs of each depth and capacity.
const CONTENDED: u64 = 20;

/// Random jobs of any size.
const RANDOM: u64 = 150;

/// What was met over all jobs.
#[derive(Debug, Default)]
struct Met {
    held: Held,
    lists: usize,
    too_long: usize,
    /// Lists cut before their last needed turn: without it a search has no answer, an insert or delete its answer but a locked page.
    unanswered: usize,
    answered: usize,
}

/// A result in which all is done, by its bytes: no code is 0, so that the log has a line for each operation; none is begun but unfinished; and there is
/// a charge file behind the log, with the file as this run has left it.
fn all_done(job: &Job, result: &[u8], run: &Run) {
    let m = job.operations.len();
    assert!(answer_bytes(result, m).all(|answer| answer[0] != 0));
    assert_eq!((two_at(result, 4), two_at(result, 6)), (m, 0));
    let offset = four_at(result, 16) as usize;
    assert_eq!(offset, 24 + 8 * m + 4 * m);
    assert_eq!(result[offset..], Job::charge_file(&run.shared.file));
}

/// A result of a list that ends before the last needed turn: one operation is begun but unfinished, and so there is no charge file. A search has no
/// answer, and no line; an insert or a delete has its own, for only the unlocking is left. Gives back which it is.
fn one_unfinished(job: &Job, result: &[u8], last: usize) -> Kind {
    let m = job.operations.len();
    let kind = job.operations[last].kind;
    let unanswered = usize::from(kind == Kind::Search);
    let without: Vec<usize> = (0..m)
        .zip(answer_bytes(result, m))
        .filter(|(_, answer)| answer[0] == 0)
        .map(|(operation, _)| operation)
        .collect();
    assert_eq!(without, vec![last; unanswered]);
    let lines = m - unanswered;
    assert_eq!((two_at(result, 4), two_at(result, 6)), (lines, 1));
    assert_eq!(four_at(result, 16), 0, "no charge file");
    assert_eq!(result.len(), 24 + 8 * m + 4 * lines);
    kind
}

/// The list of a dealer: whole, up to its last needed turn, and without that.
fn the_library_finishes(job: &Job, dealt: &Dealt, met: &mut Met) {
    let mut used = dealt.run.used();
    let Some(last) = dealt.last_needed() else {
        assert!(used.is_empty());
        return;
    };
    for turns in [&dealt.turns[..], &dealt.turns[..=last]] {
        let whole = job.with_list(turns);
        let result = by_both(&whole);
        all_done(&whole, &result, &dealt.run);
        assert_eq!(counts(&result, &whole), used);
        met.held.hold_all(&whole, &used);
    }
    let cut = job.with_list(&dealt.turns[..last]);
    let result = by_both(&cut);
    let operation = dealt.turns[last];
    match one_unfinished(&cut, &result, operation) {
        Kind::Search => met.unanswered += 1,
        Kind::Insert | Kind::Delete => met.answered += 1,
    }
    used[operation] -= 1;
    assert_eq!(counts(&result, &cut), used);
}

/// The lists of all dealers, where a job can carry them.
fn the_library_finishes_all(job: &Job, met: &mut Met) {
    for dealer in DEALERS {
        let dealt = deal_rounds(job, dealer, Run::deal).unwrap();
        if dealt.turns.len() > MAX_TURNS {
            met.too_long += 1;
            continue;
        }
        met.lists += 1;
        the_library_finishes(job, &dealt, met);
    }
}

#[test]
fn stored_jobs() {
    let mut met = Met::default();
    for (name, job) in stored() {
        println!("{name}");
        the_library_finishes_all(&job, &mut met);
    }
    met.held.all_met(&[0, 1, 2, 3, 4, 5, 7, 8], 10);
    all_seen([
        ("lists", met.lists, 1_000),
        ("lists that no job can carry", met.too_long, 10),
        ("cut, a search unanswered", met.unanswered, 20),
        ("cut, all answered", met.answered, 1_000),
    ]);
}

/// Everybody at one page, which splits all the time, at every depth and every capacity.
#[test]
fn contended_jobs() {
    let mut met = Met::default();
    let whole = few_seeds(CONTENDED, |seed| {
        for job in contended_of_each(seed, "library") {
            the_library_finishes_all(&job, &mut met);
        }
    });
    if whole {
        met.held.all_met(&DEPTHS, 100);
        assert_eq!(met.too_long, 0);
    }
}

/// Jobs of any size, many of them with more operations.
#[test]
fn random_jobs() {
    let mut met = Met::default();
    let whole = few_seeds(RANDOM, |seed| {
        let job = make::job(&mut Random::new(seed, "library rounds"));
        the_library_finishes_all(&job, &mut met);
    });
    if whole {
        met.held.all_met(&DEPTHS, 100);
        assert!(met.lists > 1_000, "{} lists", met.lists);
    }
}

#[test]
fn jobs_of_the_most_turns_and_the_hotel() {
    let mut met = Met::default();
    for job in of_the_most_turns(2) {
        the_library_finishes_all(&job, &mut met);
    }
    met.held.all_met(&DEPTHS, 10);
    let lists = met.lists;
    the_library_finishes_all(&hotel_of_forty(), &mut met);
    assert_eq!(met.lists, lists + DEALERS.len(), "a job can carry each");
}

/// As many rounds as the turns that all can use together, without the searches once these must be finished. None if no job can carry the list.
fn surely(job: &Job) -> Option<()> {
    let list = sure_rounds(job).concat();
    if list.len() > MAX_TURNS {
        return None;
    }
    let mut run = Run::new(job);
    for round in sure_rounds(job) {
        assert!(is_round(&run, &round), "{round:?}");
        run.deal_all(&round);
    }
    let job = job.with_list(&list);
    all_done(&job, &by_both(&job), &run);
    Some(())
}

/// The hotel, the stored jobs, and jobs that contend for a page.
#[test]
fn lists_that_are_sure() {
    assert!(surely(&hotel_of_forty()).is_some());
    let carried = stored().iter().filter_map(|(_, job)| surely(job)).count();
    assert!(carried > 150, "{carried} stored jobs");
    let mut carried = 0;
    let whole = few_seeds(4, |seed| {
        let jobs = contended_of_each(seed, "sure");
        carried += jobs.iter().filter_map(surely).count();
    });
    assert!(carried > 200 || !whole, "{carried} contended jobs");
}

/// The job with the list that names every operation in turn, from 0 on, over and over, so many rounds as are said to be enough: all answered, and a
/// charge file. None if no job can carry the list.
fn every_operation_in_turn(job: &Job) -> Option<()> {
    let m = job.operations.len();
    let turns = m * enough(job);
    if turns > MAX_TURNS {
        return None;
    }
    let list: Vec<usize> = (0..turns).map(|turn| turn % m).collect();
    let job = job.with_list(&list);
    let mut run = Run::new(&job);
    run.deal_all(&list);
    let result = by_both(&job);
    all_done(&job, &result, &run);
    Held::default().hold_all(&job, &counts(&result, &job));
    Some(())
}

/// At each depth with one operation, two, and so on up to as many as a job can carry so many rounds for; and the stored jobs.
#[test]
fn as_many_rounds_as_are_enough() {
    let mut most = Vec::new();
    for depth in DEPTHS {
        let carried = |count: &usize| {
            let random = &mut Random::new(*count as u64, &format!("in turn {depth}"));
            let capacity = random.between(1, MAX_CAPACITY);
            let job = contended_by(random, depth, capacity, *count);
            every_operation_in_turn(&job).is_some()
        };
        most.push((1..).take_while(carried).count());
    }
    assert_eq!(most, [48, 36, 30, 25, 20, 16, 13, 10, 7]);
    let carried = stored()
        .iter()
        .filter_map(|(_, job)| every_operation_in_turn(job))
        .count();
    assert!(carried > 100, "{carried} stored jobs");
}

/// As many turns as a job can carry, and hardly a round: the second delete waits, and the first, which has the page, is named no more.
#[test]
fn a_long_list_of_few_rounds() {
    let mut job = misled(0, 2, 0);
    job.operations.truncate(2);
    job.turns = [vec![0, 0], vec![1; MAX_TURNS - 2]].concat();
    assert_eq!((rounds_in(&job, &job.turns), enough(&job)), (1, 14));
    let result = by_both(&job);
    assert_eq!(counts(&result, &job), [2, 1]);
    assert!(answer_bytes(&result, 2).all(|answer| answer[0] == 0));
    let unfinished = two_at(&result, 6);
    assert_eq!((unfinished, four_at(&result, 16)), (2, 0));
    // eleven rounds do it, though
    job.turns = [0, 1].repeat(11);
    assert!(rounds_in(&job, &job.turns) <= 11);
    let mut run = Run::new(&job);
    run.deal_all(&job.turns);
    all_done(&job, &by_both(&job), &run);
}
