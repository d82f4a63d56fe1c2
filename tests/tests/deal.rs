//! "Given a job with operations and no turns, the library writes the same job with a list ... No turn of it waits, every operation has an answer when it
//! is run, and there is a charge file. The list never has more than 10,238 turns."
//!
//! By the tests' own implementation. `deal_by_hand.rs` has lists worked out by hand, `deal_wrong.rs` dealers that are wrong, and `library_deal.rs` the
//! library.

mod dealt;

use chargefile_tests::answer::{Answer, Code, CODES};
use chargefile_tests::bounds::{Held, DEPTHS};
use chargefile_tests::deal::{at_most, least_lent, list, Room, MOST_TURNS};
use chargefile_tests::examples::example;
use chargefile_tests::explain::explain;
use chargefile_tests::job::{Job, Kind, MAX_CAPACITY, MAX_OPERATIONS};
use chargefile_tests::little_endian::{four_at, two_at};
use chargefile_tests::make;
use chargefile_tests::make_most_turns::counted_only;
use chargefile_tests::make_rounds::{
    contended_by, contended_of_each, hotel_of_forty, of_the_most_turns, one_for_each_entry, stored,
};
use chargefile_tests::plain_list::PlainList;
use chargefile_tests::random::Random;
use chargefile_tests::result::{self, Contents};
use chargefile_tests::rounds::{deal_rounds, Dealer};
use chargefile_tests::run::{result_bytes, Run};
use chargefile_tests::seeds::{each_seed, few_seeds};
use chargefile_tests::tally::all_seen;
use chargefile_tests::{check, deal, Outcome};
use dealt::{judged, refused};

/// Random jobs, mostly small.
const RANDOM: u64 = 6_000;

/// Random jobs of each depth and capacity.
const CONTENDED: u64 = 25;

/// What was met over all jobs.
#[derive(Debug, Default)]
struct Met {
    held: Held,
    codes: [usize; CODES.len()],
    splits: usize,
    retries: usize,
    longest: usize,
}

/// The job as dealing writes it, lent no more than it must be.
fn dealt_bytes(job: &Job) -> Vec<u8> {
    let bytes = job.to_bytes();
    match deal(&bytes, least_lent(&bytes, job.operations.len())) {
        Outcome::Done { result } => result,
        refused => panic!("a sound job without turns is dealt some: {refused:?}"),
    }
}

/// "The library writes the same job with a list": turn count and total are others, all else is byte for byte what it was, and the list comes behind.
fn the_same_job(job: &[u8], dealt: &[u8]) {
    let turns = two_at(dealt, 10);
    assert_eq!(dealt.len(), job.len() + 2 * turns);
    assert_eq!(four_at(dealt, 28) as usize, dealt.len());
    let mut back = dealt[..job.len()].to_vec();
    back[10..12].copy_from_slice(&job[10..12]);
    back[28..32].copy_from_slice(&job[28..32]);
    assert!(back == job, "another byte has changed");
}

/// "No turn of it waits, every operation has an answer when it is run, and there is a charge file": as the result tells it, which the plain list explains.
fn its_result(dealt: &Job) -> Contents {
    let contents = result::from_bytes(&result_bytes(&dealt.to_bytes())).unwrap();
    assert_eq!(contents.under_way, 0);
    let answered = |answer: &Answer| answer.code != Code::NotYet;
    assert!(contents.answers.iter().all(answered));
    let used: usize = contents.answers.iter().map(|answer| answer.turns).sum();
    assert_eq!(used, dealt.turns.len(), "a turn that is not used");
    let list = explain(dealt, &contents).unwrap();
    let file = contents.charge_file.as_ref().expect("a charge file");
    assert_eq!(check(file), None);
    let file = Job::from_bytes(file).file;
    assert_eq!(PlainList::of(&file.holds()), Ok(list));
    contents
}

/// "It stops when all have finished": without the last turn one operation is left, the one that the turn names.
fn one_turn_fewer(dealt: &Job) {
    let Some((last, before)) = dealt.turns.split_last() else {
        assert!(dealt.operations.is_empty());
        return;
    };
    let mut run = Run::new(dealt);
    run.deal_all(before);
    assert!(run.unfinished().eq([*last]));
    assert_eq!(run.under_way(), 1, "no charge file");
}

/// All searches read their pages before anybody writes one, so they tell of the file as it came in.
fn searches_see_the_file_that_came_in(job: &Job, contents: &Contents) {
    for (operation, answer) in job.operations.iter().zip(&contents.answers) {
        if operation.kind != Kind::Search {
            continue;
        }
        let page = job.file.page_of(operation.call);
        let there = job.file.page(page).find(operation.call);
        let wanted = there.map_or((Code::None, 0, 3), |there| (Code::Found, there.charge, 2));
        assert_eq!((answer.code, answer.charge, answer.turns), wanted);
        assert_eq!(answer.page, Some(page));
    }
}

/// Has a job dealt its turns, and asks all that is said of them.
fn is_dealt(job: &Job, met: &mut Met) {
    let bytes = dealt_bytes(job);
    the_same_job(&job.to_bytes(), &bytes);
    assert_eq!(check(&bytes), None);
    let dealt = Job::from_bytes(&bytes);
    let most = at_most(job.operations.len(), job.file.depth);
    assert!(dealt.turns.len() <= most && most <= MOST_TURNS);
    let run = judged(job, &dealt.turns).unwrap_or_else(|wrong| panic!("{wrong:?} in {job:?}"));
    assert_eq!((run.waits, run.idle), (0, 0));
    let contents = its_result(&dealt);
    one_turn_fewer(&dealt);
    searches_see_the_file_that_came_in(job, &contents);
    met.held.hold_all(job, &run.used());
    for answer in &contents.answers {
        met.codes[answer.code.number()] += 1;
    }
    met.splits += run.shared.tally.splits;
    met.retries += run.shared.tally.retries;
    met.longest = met.longest.max(dealt.turns.len());
}

#[test]
fn random_jobs() {
    let mut met = Met::default();
    let whole = each_seed(RANDOM, |seed| {
        let random = &mut Random::new(seed, "deal");
        let job = make::mostly_small_job_without_turns(random, seed);
        is_dealt(&job, &mut met);
    });
    if whole {
        println!("{:?}, longest {}", met.codes, met.longest);
        met.held.all_met(&DEPTHS, 50);
        assert_eq!(met.codes[0], 0);
        assert!(met.codes[1..].iter().all(|count| *count > 50));
    }
}

/// Everybody at one page, which splits all the time, at every depth and every capacity.
#[test]
fn contended_jobs() {
    let mut met = Met::default();
    let whole = few_seeds(CONTENDED, |seed| {
        for job in contended_of_each(seed, "deal") {
            is_dealt(&job, &mut met);
        }
    });
    if whole {
        met.held.all_met(&DEPTHS, 100);
        all_seen([("splits", met.splits, 900), ("retries", met.retries, 1_000)]);
    }
}

/// Jobs in which some list makes the operations use as many turns as they can, and the jobs of the vectors and examples, without their own turns.
#[test]
fn stored_jobs_and_those_of_the_most_turns() {
    let mut met = Met::default();
    for capacity in [1, 3, MAX_CAPACITY] {
        for job in of_the_most_turns(capacity) {
            is_dealt(&job.with_list(&[]), &mut met);
        }
    }
    for (name, job) in stored() {
        println!("{name}");
        is_dealt(&job.with_list(&[]), &mut met);
    }
    met.held.all_met(&DEPTHS, 6);
}

/// As many operations, entries and pages as there can be.
#[test]
fn the_largest_jobs() {
    let mut met = Met::default();
    for capacity in 1..=MAX_CAPACITY {
        is_dealt(&one_for_each_entry(capacity), &mut met);
        let random = &mut Random::new(capacity as u64, "largest");
        is_dealt(&contended_by(random, 8, capacity, MAX_OPERATIONS), &mut met);
    }
    is_dealt(&example("month").job.with_list(&[]), &mut met);
    println!("longest {}, {} retries", met.longest, met.retries);
    all_seen([
        ("splits", met.splits, 500),
        ("retries", met.retries, 3_000),
        ("turns of the longest list", met.longest, 4_800),
    ]);
}

/// The list is that of rounds in which every unfinished operation is named, with the turns left out that wait. Another program makes those rounds.
#[test]
fn rounds_of_all_without_the_turns_that_wait() {
    let (mut waits, mut lists) = (0, 0);
    let mut same = |job: &Job| {
        let all = deal_rounds(job, Dealer::Rising, Run::deal).unwrap();
        let used = counted_only(&job.with_list(&all.turns));
        assert_eq!(used.turns, list(job));
        waits += all.run.waits;
        lists += usize::from(all.run.waits > 0);
    };
    same(&hotel_of_forty());
    same(&one_for_each_entry(1));
    let whole = few_seeds(4, |seed| {
        contended_of_each(seed, "left out")
            .iter()
            .for_each(&mut same);
    });
    if whole {
        all_seen([("turns that wait", waits, 100_000), ("lists", lists, 150)]);
    }
}

/// "A job without operations gets an empty list", so a charge file comes out byte for byte as it is.
#[test]
fn no_operations() {
    let mut files = 0;
    few_seeds(300, |seed| {
        let random = &mut Random::new(seed, "deal no operations");
        let mut job = make::mostly_small_job_without_turns(random, seed);
        job.operations.clear();
        assert!(dealt_bytes(&job) == job.to_bytes());
        files += 1;
    });
    assert!(files > 0);
}

/// What the words say a call is refused with, if it is: the job's own first, then 21, then 11 by what is too little, the lowest place first.
fn refusal(bytes: &[u8], room: Room) -> Option<(u32, u32)> {
    let own = check(bytes);
    if own.is_some() {
        return own;
    }
    let (operations, turns) = (two_at(bytes, 8), two_at(bytes, 10));
    let places = [
        (turns > 0, (21, 10)),
        (room.0 < bytes.len() + 20_476, (11, 0)),
        (room.1 < operations, (11, 1)),
        (room.2 < 24_576, (11, 2)),
    ];
    places.iter().find(|(met, _)| *met).map(|(_, told)| *told)
}

/// The job's own refusal, then 21, then 11 with its places in their order.
#[test]
fn what_is_refused() {
    refused::each_is_told("deal refused", |job, room| {
        let outcome = deal(job, room);
        let told = match outcome {
            Outcome::Done { .. } => None,
            Outcome::Refused { number, place } => Some((number, place)),
        };
        assert_eq!(told, refusal(job, room));
        outcome
    });
}
