//! The library's dealing of turns against the tests' own implementation: output for output, and every lent buffer afterwards.

mod dealt;
mod linked;

use chargefile_tests::answer::{Answer, Code};
use chargefile_tests::check;
use chargefile_tests::check::{least_lent as least_lent_run, WORKING_MEMORY};
use chargefile_tests::deal::{least_lent, Room, MORE, MOST_TURNS};
use chargefile_tests::examples::example;
use chargefile_tests::explain::explain_from;
use chargefile_tests::job::{Counts, Job, MAX_CAPACITY, MAX_OPERATIONS};
use chargefile_tests::make;
use chargefile_tests::make_months::{between_months, month};
use chargefile_tests::make_rounds::{
    contended_by, contended_of_each, of_the_most_turns, one_for_each_entry, stored,
};
use chargefile_tests::plain_list::PlainList;
use chargefile_tests::random::Random;
use chargefile_tests::result::{self, Contents};
use chargefile_tests::seeds::{each_seed, few_seeds};
use chargefile_tests::tally::all_seen;
use chargefile_tests::vectors;
use chargefile_tests::{deal, Outcome};
use dealt::refused;
use linked::Lent;

const JOBS: u64 = 12_000;
const CONTENDED: u64 = 10;

/// Both come to the same, and what is lent is left as the document says.
fn agree(job: &[u8], room: Room) -> Outcome {
    let wanted = deal(job, room);
    linked::deals_to(job, room, &wanted);
    wanted
}

/// The job with the turns dealt for it, lent no more than it must be.
fn dealt(job: &Job) -> Job {
    let bytes = job.to_bytes();
    match agree(&bytes, least_lent(&bytes, job.operations.len())) {
        Outcome::Done { result } => Job::from_bytes(&result),
        refused => panic!("a sound job without turns is dealt some: {refused:?}"),
    }
}

/// The library's run of a dealt job, by what its result says: all is answered and finished, and every turn is used.
fn its_run(dealt: &Job) -> Contents {
    let bytes = dealt.to_bytes();
    assert_eq!(linked::check(&bytes), None);
    let (room, rows, memory) = least_lent_run(&bytes);
    let told = linked::run(&bytes, &mut Lent::new(room, rows, memory));
    let contents = result::from_bytes(&told.expect("a dealt job is run")).unwrap();
    let answered = |answer: &Answer| answer.code != Code::NotYet;
    assert!(contents.answers.iter().all(answered));
    assert_eq!(contents.under_way, 0);
    let used: usize = contents.answers.iter().map(|answer| answer.turns).sum();
    assert_eq!(used, dealt.turns.len(), "no turn waits");
    contents
}

/// Dealt by both and run by the library. Gives back how many turns there are.
fn dealt_and_run(job: &Job) -> usize {
    let dealt = dealt(job);
    let contents = its_run(&dealt);
    let file = contents.charge_file.expect("a charge file");
    assert_eq!(linked::check(&file), None);
    assert!(dealt.turns.len() <= MOST_TURNS);
    dealt.turns.len()
}

/// It comes to what is stored; more lent than stored changes nothing but a refusal for too little. The last name printed is that of a vector that
/// fails.
#[test]
fn every_vector() {
    for vector in vectors::to_be_dealt() {
        println!("{}", vector.name);
        let (out, rows, memory) = vector.room;
        linked::deals_to(&vector.job, vector.room, &vector.wanted);
        if !matches!(vector.wanted, Outcome::Refused { number: 11, .. }) {
            let more = (out + 100, rows + 3, memory + 50);
            linked::deals_to(&vector.job, more, &vector.wanted);
        }
    }
}

/// With as much lent as must be, and more.
#[test]
fn random_jobs() {
    let mut turns = 0;
    let whole = each_seed(JOBS, |seed| {
        let random = &mut Random::new(seed, "library deal");
        let job = make::mostly_small_job_without_turns(random, seed);
        let bytes = job.to_bytes();
        let (out, rows, memory) = least_lent(&bytes, job.operations.len());
        let more = random.below(3) * random.below(300);
        let room = (out + more, rows + random.below(3) * more, memory + more);
        assert!(matches!(agree(&bytes, room), Outcome::Done { .. }));
        turns += dealt_and_run(&job);
    });
    if whole {
        assert!(turns > 100_000, "{turns} turns");
    }
}

/// Everybody at one page, which splits all the time; jobs of the most turns; the stored jobs without their turns.
#[test]
fn contended_and_stored_jobs() {
    let mut turns = 0;
    few_seeds(CONTENDED, |seed| {
        for job in contended_of_each(seed, "library deal") {
            turns += dealt_and_run(&job);
        }
    });
    for job in of_the_most_turns(2) {
        turns += dealt_and_run(&job.with_list(&[]));
    }
    for (name, job) in stored() {
        println!("{name}");
        turns += dealt_and_run(&job.with_list(&[]));
    }
    assert!(turns > 20_000, "{turns} turns");
}

/// As many operations, entries and pages as there can be.
#[test]
fn the_largest_jobs() {
    let mut longest = 0;
    for capacity in 1..=MAX_CAPACITY {
        longest = longest.max(dealt_and_run(&one_for_each_entry(capacity)));
        let random = &mut Random::new(capacity as u64, "library largest");
        let job = contended_by(random, 8, capacity, MAX_OPERATIONS);
        dealt_and_run(&job);
    }
    dealt_and_run(&example("month").job.with_list(&[]));
    assert_eq!(longest, 4_817);
}

/// The answers of a run of the library's list are explained by its own log, and its charge file holds what the plain list holds: month after month, each
/// of them dealt, run, and begun from the file that the last has left.
#[test]
fn months_dealt_by_the_library() {
    let mut months = 0;
    let whole = few_seeds(120, |seed| {
        let random = &mut Random::new(seed, "library dealt months");
        let mut file = between_months(random);
        let calls = make::pool(random, file.depth);
        let mut list = PlainList::of(&file.holds()).unwrap();
        for _ in 0..3 {
            let job = dealt(&month(random, file, &calls).with_list(&[]));
            let contents = its_run(&job);
            list = explain_from(list, &job, &contents).unwrap();
            let left = contents.charge_file.expect("a charge file");
            file = Job::from_bytes(&left).file;
            assert_eq!(PlainList::of(&file.holds()).as_ref(), Ok(&list));
            months += 1;
        }
    });
    assert!(months == 360 || !whole, "{months} months");
}

/// The job's own refusals come before all others, then 21, then 11.
#[test]
fn damaged_jobs() {
    refused::each_is_told("library deal damage", agree);
}

/// Each of the three just enough, and one less; where two are short, the lower place is told.
#[test]
fn too_little_lent() {
    let mut jobs = 0;
    few_seeds(300, |seed| {
        let random = &mut Random::new(seed, "library deal room");
        let job = make::mostly_small_job_without_turns(random, seed);
        let bytes = job.to_bytes();
        let (out, rows) = (bytes.len() + MORE, job.operations.len());
        let refused = |place| Outcome::Refused { number: 11, place };
        let less_memory = WORKING_MEMORY - 1;
        assert_eq!(agree(&bytes, (out - 1, 0, 0)), refused(0));
        assert_eq!(agree(&bytes, (out - 1, rows, WORKING_MEMORY)), refused(0));
        assert_eq!(agree(&bytes, (out, rows, less_memory)), refused(2));
        if rows > 0 {
            assert_eq!(agree(&bytes, (out, rows - 1, 0)), refused(1));
            assert_eq!(agree(&bytes, (out, rows - 1, WORKING_MEMORY)), refused(1));
            jobs += 1;
        }
        let done = agree(&bytes, (out, rows, WORKING_MEMORY));
        assert!(matches!(done, Outcome::Done { .. }));
    });
    assert!(jobs > 0, "no job with an operation");
}

/// Every length of the output for a small job, up to some past the least; the list itself is far shorter.
#[test]
fn every_room() {
    let bytes = example("job-e").job.with_list(&[]).to_bytes();
    let mut taken = 0;
    for room in 0..bytes.len() + MORE + 20 {
        let outcome = agree(&bytes, (room, 4, WORKING_MEMORY));
        taken += usize::from(matches!(outcome, Outcome::Done { .. }));
    }
    assert_eq!(taken, 20);
}

/// Turns are refused, at their count, however many there are and whatever is lent; and so is what dealing has written, where it has turns.
#[test]
fn a_job_with_turns_is_refused() {
    let (mut with_turns, mut again) = (0, 0);
    let whole = few_seeds(600, |seed| {
        let random = &mut Random::new(seed, "library deal turns");
        let job = make::mostly_small_job(random, seed);
        let refused = Outcome::Refused {
            number: 21,
            place: 10,
        };
        let enough = (60_000, 256, WORKING_MEMORY);
        if !job.turns.is_empty() {
            assert_eq!(agree(&job.to_bytes(), enough), refused);
            assert_eq!(agree(&job.to_bytes(), (0, 0, 0)), refused);
            with_turns += 1;
        }
        let dealt = dealt(&job.with_list(&[]));
        if !dealt.turns.is_empty() {
            assert_eq!(agree(&dealt.to_bytes(), enough), refused);
            again += 1;
        }
    });
    if whole {
        all_seen([("with turns", with_turns, 300), ("dealt", again, 300)]);
    }
}

/// A job without operations comes out byte for byte as it is, and needs no row.
#[test]
fn no_operations() {
    few_seeds(300, |seed| {
        let random = &mut Random::new(seed, "library deal file");
        let file = between_months(random);
        let bytes = Job::charge_file(&file);
        let room = (bytes.len() + MORE, random.below(3), WORKING_MEMORY);
        let result = bytes.clone();
        assert_eq!(agree(&bytes, room), Outcome::Done { result });
    });
}

/// Every length of a job but its own is refused.
#[test]
fn every_length() {
    few_seeds(20, |seed| {
        let random = &mut Random::new(seed, "library deal length");
        let job = make::mostly_small_job_without_turns(random, 1).to_bytes();
        let longer = [&job[..], &[0; 40]].concat();
        for length in (0..job.len().min(400)).chain(job.len() + 1..longer.len()) {
            let (number, place) = match length {
                0..32 => (1, length as u32),
                _ => (4, 28),
            };
            let outcome = agree(&longer[..length], (60_000, 8, WORKING_MEMORY));
            assert_eq!(outcome, Outcome::Refused { number, place });
        }
    });
}

/// Job, output and working memory may begin at any address; and nothing beside them is written.
#[test]
fn every_address() {
    few_seeds(16, |seed| {
        let random = &mut Random::new(seed, "library deal address");
        let job = make::mostly_small_job_without_turns(random, 1);
        let bytes = job.to_bytes();
        let (out, rows, memory) = least_lent(&bytes, job.operations.len());
        for behind in (0..16).flat_map(|one| (0..16).map(move |other| (one, other))) {
            let less = random.one_of(&[0, 0, 0, 0, 1]);
            let room = (out - less, rows + random.below(2), memory);
            let behind = [behind.0, behind.1, random.below(16)];
            linked::deals_at(&bytes, room, behind, &deal(&bytes, room));
        }
    });
}

/// What the lent parts hold beforehand does not matter.
#[test]
fn whatever_was_there_before() {
    few_seeds(300, |seed| {
        let random = &mut Random::new(seed, "library deal before");
        let job = make::mostly_small_job_without_turns(random, seed);
        let bytes = job.to_bytes();
        let (out, rows, memory) = least_lent(&bytes, job.operations.len());
        let wanted = linked::wanted(&deal(&bytes, (out, rows, memory)));
        let mut lent = Lent::new(out, rows, memory);
        lent.memory.fill_with(|| random.bits() as u8);
        lent.result.fill_with(|| random.bits() as u8);
        for row in &mut lent.rows {
            row.stage = random.bits() as u8;
            row.page = random.bits() as u8;
            row.used = random.bits() as u16;
            row.code = random.bits() as u8;
        }
        let filled = lent.result.clone();
        assert_eq!(linked::deal(&bytes, &mut lent), wanted);
        let end = wanted.expect("it is dealt turns").len();
        assert!(lent.result[end..] == filled[end..], "bytes past the output");
        // and what is left is ready for the next
        assert_eq!(
            linked::deal(&bytes, &mut lent).map(|all| all.len()),
            Ok(end)
        );
    });
}

/// Number and place are whole numbers of 64 bits, the length too: no part of them is left as it was.
#[test]
fn the_whole_outcome() {
    let job = example("evening").job;
    let bytes = job.to_bytes();
    assert_eq!((check(&bytes), Counts::read(&bytes).turns), (None, 0));
    let (out, rows, memory) = least_lent(&bytes, job.operations.len());
    let told = linked::deal_only(&bytes, &mut Lent::new(out, rows, memory));
    let length = bytes.len() as u64 + 2 * 24;
    assert_eq!((told.refusal, told.place, told.length), (0, 0, length));
    let told = linked::deal_only(&bytes, &mut Lent::new(out, rows, memory - 1));
    assert_eq!((told.refusal, told.place, told.length), (11, 2, 0));
}
