//! "Delete only at this charge": every two operations on one call, at a few
//! charges, under every list of six turns each. What the two come to is what they
//! come to one after the other, in the log's order; that is reckoned here by a
//! list of one call at most.

use chargefile_tests::answer::Code;
use chargefile_tests::by_hand::*;
use chargefile_tests::job::{Job, Kind, Operation};
use chargefile_tests::page::Record;
use chargefile_tests::run::Run;
use chargefile_tests::tally::all_seen;

/// No operation on a page that is not split has more steps.
const STEPS: u32 = 6;

/// The charges that the call can be there at, or be stored at, or be asked for.
const CHARGES: [u32; 3] = [0, 5, 5 + (1 << 24)];

/// What an operation comes to where the call is there at a charge, or missing:
/// code, charge and turns used, and what is left of the call.
fn alone(operation: &Operation, there: Option<u32>) -> ((Code, u32, usize), Option<u32>) {
    match (operation.kind, operation.charge, there) {
        (Kind::Search, _, None) => ((Code::None, 0, 3), None),
        (Kind::Search, _, Some(held)) => ((Code::Found, held, 2), there),
        (Kind::Insert, new, None) => ((Code::Stored, new, 6), Some(new)),
        (Kind::Insert, _, Some(held)) => ((Code::AlreadyThere, held, 5), there),
        (Kind::Delete, _, None) => ((Code::Absent, 0, 5), None),
        (Kind::Delete, 0, Some(held)) => ((Code::Deleted, held, 6), None),
        (Kind::Delete, asked, Some(held)) if asked == held => ((Code::Deleted, held, 6), None),
        (Kind::Delete, _, Some(held)) => ((Code::Differs, held, 5), there),
    }
}

/// Every list of six turns for each of two operations, as the bits of a number.
fn lists() -> impl Iterator<Item = Vec<usize>> {
    let even = |bits: &u32| bits.count_ones() == STEPS;
    let turns = |bits: u32| (0..2 * STEPS).map(move |t| (bits >> t & 1) as usize);
    (0..1 << (2 * STEPS))
        .filter(even)
        .map(move |bits| turns(bits).collect())
}

/// Every operation on the call.
fn operations() -> Vec<Operation> {
    let inserts = CHARGES.map(|charge| insert(2, charge));
    let deletes = CHARGES.map(|charge| delete_at(2, charge));
    [&inserts[..], &deletes, &[search(2)]].concat()
}

/// Deals the list, and then the turns that those still want that have waited.
fn dealt(job: &Job, list: &[usize]) -> Run {
    let mut run = Run::new(job);
    run.deal_all(list);
    for _ in 0..2 * STEPS {
        let open: Vec<usize> = run.unfinished().collect();
        run.deal_all(&open);
    }
    assert_eq!(run.unfinished().count(), 0);
    run
}

/// The answers are those of the one-by-one run in the log's order, and so is the
/// file; gives back whether operation 1 came first, and the answers' codes.
fn explained(job: &Job, run: &Run, held: Option<u32>) -> (bool, [Code; 2]) {
    let order: Vec<usize> = run.log().iter().map(|line| line.operation).collect();
    let (answers, mut there) = (run.answers(), held);
    for &i in &order {
        let (wanted, left) = alone(&job.operations[i], there);
        let answer = answers[i];
        assert_eq!((answer.code, answer.charge, answer.turns), wanted);
        there = left;
    }
    let record = |charge| Record { call: 2, charge };
    let left: Vec<Record> = there.map(record).into_iter().collect();
    assert_eq!(run.shared.file.page(1).records, left);
    in_time(run, &order);
    (order[0] == 1, [answers[0].code, answers[1].code])
}

/// One that ended before the other began stands before it in the log.
fn in_time(run: &Run, order: &[usize]) {
    assert_eq!(order.len(), 2);
    let (first, second) = (&run.rows[order[0]], &run.rows[order[1]]);
    assert!(second.ended_on >= first.first_turn);
}

#[test]
fn every_list_of_two_operations() {
    let lists: Vec<Vec<usize>> = lists().collect();
    assert_eq!(lists.len(), 924);
    let (mut runs, mut turned_round) = (0, 0);
    let (mut differs, mut struck_and_differs, mut stored_and_differs) = (0, 0, 0);
    for held in [None, Some(CHARGES[0]), Some(CHARGES[1]), Some(CHARGES[2])] {
        let records: Vec<(u32, u32)> = held.map(|charge| (2, charge)).into_iter().collect();
        let file = file(0, 1, &[(0, 0, &records)]);
        for one in operations() {
            for other in operations() {
                let job = job(&file, &[one, other], &[]);
                for list in &lists {
                    let run = dealt(&job, list);
                    let (turned, codes) = explained(&job, &run, held);
                    let has = |code| usize::from(codes.contains(&code));
                    runs += 1;
                    turned_round += usize::from(turned);
                    differs += has(Code::Differs);
                    struck_and_differs += has(Code::Differs) * has(Code::Deleted);
                    stored_and_differs += has(Code::Differs) * has(Code::Stored);
                }
            }
        }
    }
    println!("{runs}: {turned_round}, {differs}, {struck_and_differs}, {stored_and_differs}");
    all_seen([
        ("runs", runs, 4 * 7 * 7 * 924),
        ("operation 1 first", turned_round, 50_000),
        ("differs", differs, 20_000),
        ("one struck, the other differs", struck_and_differs, 2_000),
        ("one stored, the other differs", stored_and_differs, 2_000),
    ]);
}
