//! "A hotel with 40 operations wants to know how long a turn list must be. Let a round be a list in which every operation unfinished at its start has
//! at least one turn. In an accepted job with m operations and depth g, m × (2^g + 4g + 6) rounds finish them all. This is about the steps under a list
//! of any length, also one longer than a job can carry."
//!
//! The numbers, what a round is, what the dealers deal, and the hotel.

use chargefile_tests::answer::{Code, CODES};
use chargefile_tests::bounds::{Held, DEPTHS, KINDS};
use chargefile_tests::by_hand::{self, delete, insert, search};
use chargefile_tests::check;
use chargefile_tests::examples::example;
use chargefile_tests::job::{Job, Kind, MAX_OPERATIONS, MAX_TURNS};
use chargefile_tests::make_most_turns::misled;
use chargefile_tests::make_rounds::{contended, hotel_of_forty};
use chargefile_tests::random::Random;
use chargefile_tests::rounds::{
    deal_rounds, enough, is_round, most_used, rounds_in, sure_rounds, unlocks_next, Dealer, DEALERS,
};
use chargefile_tests::run::Run;
use chargefile_tests::seeds::few_seeds;

/// Rounds and turns in which a hotel's forty operations at depth 3 are finished, by dealer. 1,040 rounds are said to be enough.
const HOTEL: [(Dealer, usize, usize); DEALERS.len()] = [
    (Dealer::Rising, 58, 828),
    (Dealer::Falling, 65, 790),
    (Dealer::AnyOrder, 55, 815),
    (Dealer::WaitingFirst, 72, 971),
    (Dealer::LocksFirst, 72, 971),
    (Dealer::Wasteful, 72, 10_374),
    (Dealer::Slowest, 72, 971),
    (Dealer::OneAhead, 22, 520),
    (Dealer::Everyone, 58, 2_320),
    (Dealer::EveryoneFalling, 65, 2_600),
];

/// Depths 0 to 8 with one operation; a hotel's forty at depth 3; no operation, no round.
#[test]
fn the_numbers_by_hand() {
    let with_one = |depth| {
        let mut job = misled(depth, 1, 0);
        job.operations.truncate(1);
        enough(&job)
    };
    let each = DEPTHS.map(with_one);
    assert_eq!(each, [7, 12, 18, 26, 38, 58, 94, 162, 294]);
    let hotel = hotel_of_forty();
    assert_eq!(enough(&hotel), 40 * 26);
    // 16 inserts, 12 searches and 12 deletes
    assert_eq!(most_used(&hotel), 16 * 17 + 12 * 9 + 12 * 15);
    let blank = by_hand::job(&by_hand::one_page(&[]), &[], &[]);
    assert_eq!((enough(&blank), most_used(&blank)), (0, 0));
    assert_eq!(
        deal_rounds(&blank, Dealer::Slowest, Run::deal)
            .unwrap()
            .rounds,
        0
    );
}

/// Every unfinished operation is in it, however often and in whatever order; the finished ones need not be.
#[test]
fn what_a_round_is() {
    let operations = [search(2), delete(2), insert(3, 10)];
    let job = by_hand::job(&by_hand::one_page(&[(2, 50)]), &operations, &[]);
    let mut run = Run::new(&job);
    assert!(is_round(&run, &[0, 1, 2]) && is_round(&run, &[2, 2, 0, 1, 0]));
    assert!(!is_round(&run, &[0, 1, 1]) && !is_round(&run, &[]));
    run.deal_all(&[0, 0]);
    assert!(is_round(&run, &[1, 2]) && !is_round(&run, &[0, 2]));
    run.deal_all(&[1, 1, 1, 1, 1]);
    // only the unlocking is left
    assert!(!is_round(&run, &[2]));
    run.deal(1);
    assert!(is_round(&run, &[2]) && !is_round(&run, &[0, 1]));
    run.deal_all(&[2, 2, 2, 2, 2, 2]);
    assert!(is_round(&run, &[]));
    // the first ends with operation 2; the search is finished then, and the others need not name it
    assert_eq!(rounds_in(&job, &[0, 1, 0, 2, 1, 2, 2, 1]), 3);
    assert_eq!(rounds_in(&job, &[0, 1, 0, 1]), 0);
}

/// Operation 0 has only to unlock its page, for which operation 1 waits; 2 has not begun, and 3 is finished.
#[test]
fn what_the_dealers_deal() {
    let operations = [delete(2), delete(3), search(2), search(2)];
    let job = by_hand::job(&by_hand::one_page(&[(2, 50)]), &operations, &[]);
    let mut run = Run::new(&job);
    run.deal_all(&[0, 3, 3, 0, 0, 0, 0, 1]);
    for (dealer, round) in [
        (Dealer::Rising, vec![0, 1, 2]),
        (Dealer::Falling, vec![2, 1, 0]),
        (Dealer::WaitingFirst, vec![1, 0, 2]),
        (Dealer::LocksFirst, vec![1, 2, 0]),
        (Dealer::Wasteful, vec![1, 3, 1, 3, 1, 3, 1, 3, 0, 2]),
        (Dealer::Slowest, vec![1, 2, 0]),
        (Dealer::OneAhead, vec![0, 0, 0, 0, 0, 0, 0, 0, 1, 2]),
        (Dealer::Everyone, vec![0, 1, 2, 3]),
        (Dealer::EveryoneFalling, vec![3, 2, 1, 0]),
    ] {
        assert_eq!(dealer.next_round(&run, 0, Run::deal), round, "{dealer:?}");
    }
    let mut orders: Vec<Vec<usize>> = (0..50)
        .map(|number| Dealer::AnyOrder.next_round(&run, number, Run::deal))
        .collect();
    orders.sort();
    orders.dedup();
    assert_eq!(orders.len(), 6, "every order of three");
}

/// A dealer that would unlock last must know which steps unlock.
#[test]
fn which_steps_unlock() {
    let (mut unlocks, mut others) = (0, 0);
    few_seeds(200, |seed| {
        let random = &mut Random::new(seed, "steps that unlock");
        let job = contended(random, 1 + seed as u32 % 4, 1 + seed as usize % 3);
        let mut run = Run::new(&job);
        let dealt = deal_rounds(&job, Dealer::LocksFirst, Run::deal).unwrap();
        for operation in dealt.turns {
            let before = run.shared.locked_by(operation);
            let next = unlocks_next(&run.rows[operation].progress.stage);
            run.deal(operation);
            let fewer = run.shared.locked_by(operation) < before;
            assert_eq!(next, fewer, "operation {operation}");
            unlocks += usize::from(fewer);
            others += usize::from(!fewer);
        }
    });
    assert!(unlocks > 0 && others > 0);
}

/// The hotel is one: forty operations of all kinds, answers of all kinds but those for want of room, pages that split while others wait for them.
#[test]
fn a_hotel_with_forty_operations() {
    let hotel = hotel_of_forty();
    let of_kind = |kind| {
        hotel
            .operations
            .iter()
            .filter(|operation| operation.kind == kind)
            .count()
    };
    assert_eq!(KINDS.map(of_kind), [12, 16, 12]);
    assert_eq!((hotel.file.depth, hotel.file.capacity), (3, 4));
    assert_eq!(check(&hotel.to_bytes()), None);
    for (dealer, rounds, turns) in HOTEL {
        let dealt = deal_rounds(&hotel, dealer, Run::deal).unwrap();
        assert_eq!(
            (dealt.rounds, dealt.turns.len()),
            (rounds, turns),
            "{dealer:?}"
        );
        let codes: Vec<Code> = dealt
            .run
            .answers()
            .iter()
            .map(|answer| answer.code)
            .collect();
        let met = CODES.map(|code| codes.contains(&code));
        assert_eq!(
            met,
            [false, true, true, true, true, true, true, false, false, true]
        );
        let tally = &dealt.run.shared.tally;
        assert!(tally.splits >= 3 && tally.retries >= 6 && dealt.run.waits >= 200);
    }
}

/// What examples/README.md says of the same forty, every one of them in turn: in the third round the last search is finished, and in the last, two deletes.
#[test]
fn the_example_needs_each_of_its_rounds() {
    let job = example("forty").job;
    let mut run = Run::new(&job);
    run.deal_all(&job.turns);
    assert_eq!(job.turns.len(), 58 * 40);
    let full = |number: &usize| job.file.page(*number).records.len() == 4;
    assert_eq!((job.file.in_use, (1..=3).filter(full).count()), (3, 2));
    assert_eq!(run.used().into_iter().max(), Some(12));
    let round = |operation: usize| run.rows[operation].ended_on.expect("finished") / 40 + 1;
    let is_search = |operation: &usize| job.operations[*operation].kind == Kind::Search;
    assert_eq!((0..40).filter(is_search).map(round).max(), Some(3));
    let last: Vec<usize> = (0..40)
        .filter(|operation| round(*operation) == 58)
        .collect();
    assert_eq!(last, [37, 38]);
    let call = |operation: usize| job.operations[operation].call;
    assert_eq!((call(37), call(38)), (208, 204));
}

/// The list that docs/TURNS.md has for the hotel: nine rounds of all forty, then 551 of the inserts and deletes. Each part of it is a round.
#[test]
fn a_list_that_is_sure_and_fits() {
    let hotel = hotel_of_forty();
    let rounds = sure_rounds(&hotel);
    assert_eq!((rounds.len(), rounds.concat().len()), (9 + 551, 15_788));
    assert!(rounds.concat().len() <= MAX_TURNS);
    let mut run = Run::new(&hotel);
    for round in rounds {
        assert!(is_round(&run, &round), "{round:?}");
        run.deal_all(&round);
    }
    assert_eq!(run.unfinished().count(), 0);
}

/// Deals every operation in turn, from 0 on, as many rounds as are enough. All are finished, and the turns behind the last that did something change
/// nothing. Gives back how many turns there are, and how many were needed.
fn everyone_in_turn(job: &Job) -> (usize, usize) {
    let m = job.operations.len();
    let turns = m * enough(job);
    let mut run = Run::new(job);
    (0..turns).for_each(|turn| {
        run.deal(turn % m);
    });
    assert_eq!(run.unfinished().count(), 0);
    let used = run.used();
    Held::default().hold_all(job, &used);
    let last = run.rows.iter().filter_map(|row| row.ended_on).max();
    let needed: Vec<usize> = (0..=last.expect("an operation"))
        .map(|turn| turn % m)
        .collect();
    let mut first = Run::new(job);
    first.deal_all(&needed);
    assert_eq!(first.contents(), run.contents());
    (turns, needed.len())
}

/// "This is about the steps under a list of any length, also one longer than a job can carry": as long as is said for the hotel, and for the most
/// operations at the greatest depth.
#[test]
fn a_list_longer_than_a_job_can_carry() {
    assert_eq!(everyone_in_turn(&hotel_of_forty()), (41_600, 2_319));
    let most = misled(8, 8, MAX_OPERATIONS - 8 - 8 - 1);
    let (turns, needed) = everyone_in_turn(&most);
    assert_eq!(turns, 256 * 294 * 256);
    assert!(needed > MAX_TURNS && needed < turns / 100, "{needed}");
}
