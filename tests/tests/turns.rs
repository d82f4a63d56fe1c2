//! Turn by turn: small runs followed by hand ("Turns"; "The result"). The calls
//! are those of `CALLS_BY_FIRST_BITS`: 4, 7 and 9 have index 0 at depth 1, and 5,
//! 8 and 12 index 1.

use chargefile_tests::answer::{Code, Line};
use chargefile_tests::by_hand::CALLS_BY_FIRST_BITS;
use chargefile_tests::file::ChargeFile;
use chargefile_tests::job::{Job, Kind, Operation};
use chargefile_tests::key::index;
use chargefile_tests::page::Record;
use chargefile_tests::run::Run;
use chargefile_tests::turn::Turned;

const SEARCH: Kind = Kind::Search;
const INSERT: Kind = Kind::Insert;
const DELETE: Kind = Kind::Delete;

/// A run of a file of one page. An insert's charge is ten times its call.
fn start(depth: u32, page_count: usize, calls: &[u32], operations: &[(Kind, u32)]) -> Run {
    let mut file = ChargeFile::empty(depth, 2, page_count);
    for &call in calls {
        let charge = 100 + call;
        file.page_mut(1).records.push(Record { call, charge });
    }
    let operation = |&(kind, call): &(Kind, u32)| Operation {
        kind,
        call,
        charge: if kind == INSERT { 10 * call } else { 0 },
    };
    Run::new(&Job {
        file,
        operations: operations.iter().map(operation).collect(),
        turns: Vec::new(),
    })
}

/// Code, charge and turns used of an operation.
fn answer(run: &Run, operation: usize) -> (Code, u32, usize) {
    let answer = run.answers()[operation];
    (answer.code, answer.charge, answer.turns)
}

fn log(run: &Run) -> Vec<(usize, usize)> {
    let pair = |line: &Line| (line.moment, line.operation);
    run.log().iter().map(pair).collect()
}

fn calls(run: &Run, page: usize) -> Vec<u32> {
    run.shared.file.page(page).calls()
}

#[test]
fn the_calls_have_the_first_bits_that_the_table_says() {
    for call in 0..32 {
        assert!(
            CALLS_BY_FIRST_BITS[index(call, 3)].contains(&call),
            "{call}"
        );
    }
}

#[test]
fn a_plain_insert_takes_six_turns() {
    let mut run = start(1, 1, &[4], &[(INSERT, 7)]);
    run.deal_all(&[0; 4]);
    assert_eq!(
        answer(&run, 0),
        (Code::NotYet, 0, 4),
        "decided, not written"
    );
    run.deal(0);
    assert_eq!(answer(&run, 0), (Code::Stored, 70, 5));
    assert_eq!((calls(&run, 1), run.under_way()), (vec![4, 7], 1));
    run.deal(0);
    assert_eq!((run.under_way(), log(&run)), (0, vec![(4, 0)]));
    assert_eq!(run.deal(0), Turned::Idle);
    assert_eq!(answer(&run, 0), (Code::Stored, 70, 6));
}

#[test]
fn waiting_turns_are_not_counted() {
    let mut run = start(1, 1, &[4], &[(DELETE, 4), (DELETE, 4)]);
    run.deal_all(&[0, 1, 0]);
    for _ in 0..5 {
        assert!(!run.can_use_a_turn(1));
        assert_eq!(run.deal(1), Turned::Waited);
    }
    run.deal_all(&[0, 0, 0]);
    assert_eq!(run.deal(1), Turned::Waited, "written, but still locked");
    run.deal_all(&[0, 1, 1, 1, 1]);
    assert_eq!(answer(&run, 0), (Code::Deleted, 104, 6));
    assert_eq!(answer(&run, 1), (Code::Absent, 0, 5));
    assert_eq!(log(&run), [(10, 0), (15, 1)]);
}

#[test]
fn a_duplicate_lets_go_of_its_page() {
    let mut run = start(0, 1, &[4, 5], &[(INSERT, 5), (DELETE, 4)]);
    run.deal_all(&[0, 0, 0, 0]);
    assert_eq!(answer(&run, 0), (Code::AlreadyThere, 105, 4));
    assert!(run.shared.locked(1));
    run.deal(0);
    assert!(!run.shared.locked(1));
    run.deal_all(&[1; 6]);
    assert_eq!(answer(&run, 1), (Code::Deleted, 104, 6));
}

#[test]
fn a_delete_closes_the_gap() {
    let mut run = start(0, 1, &[7, 9], &[(DELETE, 7)]);
    run.deal_all(&[0; 6]);
    let page = run.shared.file.page(1).to_bytes(2);
    assert_eq!(page[..12], [0, 1, 0, 0, 9, 0, 0, 0, 109, 0, 0, 0]);
    assert_eq!(page[12..], [0; 8]);
}

#[test]
fn an_insert_goes_in_front_of_the_higher_calls() {
    let mut run = start(0, 1, &[9], &[(INSERT, 7)]);
    run.deal_all(&[0; 6]);
    assert_eq!(calls(&run, 1), [7, 9]);
    let page = run.shared.file.page(1).to_bytes(2);
    assert_eq!(page[4..12], [7, 0, 0, 0, 70, 0, 0, 0]);
    assert_eq!(page[12..], [9, 0, 0, 0, 109, 0, 0, 0]);
}

/// Call 7 belongs in the old page and call 5 in the new one, each in front of a
/// call that stays or moves there.
#[test]
fn a_split_puts_the_call_at_its_place() {
    for (call, old, new) in [(7, vec![7, 9], vec![8]), (5, vec![9], vec![5, 8])] {
        let mut run = start(1, 2, &[8, 9], &[(INSERT, call)]);
        run.deal_all(&[0; 9]);
        assert_eq!(answer(&run, 0), (Code::Stored, 10 * call, 9));
        assert_eq!((calls(&run, 1), calls(&run, 2)), (old, new));
    }
}

/// Calls 4 and 7 have index 0, call 5 has index 1. The insert of 7 splits page 1
/// while the delete of 5 holds what it read before.
#[test]
fn a_retry_unlocks_the_page_held_and_locks_the_page_just_read() {
    let mut run = start(1, 2, &[4, 5], &[(INSERT, 7), (DELETE, 5)]);
    run.deal(1);
    run.deal_all(&[0; 9]);
    assert_eq!(run.unfinished().count(), 1);
    run.deal(1);
    assert!(run.shared.locked(1) && !run.shared.locked(2), "(b)");
    run.deal(1);
    assert!(run.shared.locked(1), "(c) names page 2, page 1 still held");
    run.deal(1);
    assert!(!run.shared.locked(1) && !run.shared.locked(2), "unlocked");
    run.deal(1);
    assert!(!run.shared.locked(1) && run.shared.locked(2), "(b) again");
    run.deal_all(&[1, 1, 1, 1]);
    assert_eq!(answer(&run, 1), (Code::Deleted, 105, 9));
    assert_eq!(log(&run), [(8, 0), (16, 1)]);
}

/// The call goes to the new page, so the code is set when its own entry is
/// written, two turns before the old page is.
#[test]
fn stored_in_a_new_page_is_known_at_its_own_entry() {
    let mut run = start(1, 2, &[4, 5], &[(INSERT, 8)]);
    run.deal_all(&[0; 5]);
    assert_eq!(calls(&run, 2), [5, 8], "the new page is written");
    assert_eq!(answer(&run, 0), (Code::NotYet, 0, 5));
    run.deal(0);
    assert_eq!(answer(&run, 0), (Code::Stored, 80, 6));
    assert_eq!((run.under_way(), log(&run)), (1, vec![(5, 0)]));
    assert_eq!(calls(&run, 1), [4, 5], "the old page is not yet written");
    run.deal_all(&[0, 0, 0]);
    assert_eq!((run.under_way(), calls(&run, 1)), (0, vec![4]));
}

/// g 3; the pseudo keys of calls 4 and 20 begin with 000 and that of call 13 with
/// 001: the old page is split three times in a row.
#[test]
fn a_split_goes_step_by_step() {
    let mut run = start(3, 4, &[4, 20], &[(INSERT, 13), (INSERT, 13)]);
    run.deal_all(&[0, 0, 0]);
    assert_eq!(run.shared.file.in_use, 1);
    run.deal(0);
    assert_eq!(run.shared.file.in_use, 4, "taken on turn (d)");
    assert!((1..=4).all(|page| run.shared.locked(page)));
    run.deal_all(&[0, 0, 0]);
    let shapes = [2, 3, 4].map(|page| {
        let page = run.shared.file.page(page);
        (page.depth, page.pattern, page.records.len())
    });
    assert_eq!(shapes, [(1, 1, 0), (2, 1, 0), (3, 1, 1)]);
    let changes = [(1, 4), (2, 3), (3, 3), (4, 2), (5, 2), (6, 2), (7, 2)];
    let mut directory = vec![1; 8];
    for (entry, page) in changes {
        run.deal(0);
        directory[entry] = page;
        assert_eq!(run.shared.file.directory, directory);
    }
    assert_eq!(answer(&run, 0), (Code::Stored, 130, 14));
    // The new pages are locked until all of them are unlocked at once.
    run.deal_all(&[1, 1]);
    assert_eq!(answer(&run, 1), (Code::NotYet, 0, 1));
    run.deal(0);
    assert!((2..=4).all(|page| !run.shared.locked(page)) && run.shared.locked(1));
    run.deal_all(&[1, 1, 1]);
    assert_eq!(answer(&run, 1), (Code::AlreadyThere, 130, 4));
    run.deal_all(&[0, 0, 1]);
    assert_eq!(run.unfinished().count(), 0);
    assert_eq!(log(&run), [(7, 0), (19, 1)]);
    assert_eq!(calls(&run, 1), [4, 20]);
}

#[test]
fn a_search_reads_on_where_its_entry_leads_now() {
    let operations = [(INSERT, 7), (SEARCH, 5), (SEARCH, 12)];
    let mut run = start(1, 2, &[4, 5], &operations);
    run.deal_all(&[1, 2]);
    run.deal_all(&[0; 9]);
    run.deal_all(&[1, 2, 1, 2]);
    assert_eq!(answer(&run, 1), (Code::NotYet, 0, 3));
    run.deal_all(&[1, 2]);
    assert_eq!(answer(&run, 1), (Code::Found, 105, 4));
    assert_eq!(answer(&run, 2), (Code::NotYet, 0, 4), "not yet known");
    run.deal(2);
    assert_eq!(answer(&run, 2), (Code::None, 0, 5));
    assert_eq!(log(&run), [(9, 0), (15, 1), (16, 2)]);
}

/// The search reads the old page after its entry has left it: it is as if it
/// had read on the turn of that change, before the delete.
#[test]
fn a_late_reader_stands_where_its_entry_was_changed() {
    let operations = [(INSERT, 7), (SEARCH, 5), (DELETE, 5), (SEARCH, 4)];
    let mut run = start(1, 2, &[4, 5], &operations);
    run.deal_all(&[1, 3]);
    run.deal_all(&[0; 7]);
    run.deal_all(&[2; 6]);
    run.deal_all(&[1, 3]);
    assert_eq!(answer(&run, 1), (Code::Found, 105, 2));
    assert_eq!(answer(&run, 3), (Code::Found, 104, 2));
    // Turn 7 wrote entry 1; entry 0 still names page 1 on turn 16.
    assert_eq!(log(&run), [(7, 1), (13, 2), (16, 3)]);
}

/// g 2; the pseudo keys of calls 3, 12 and 19 begin with 10, that of call 8 with
/// 11.
#[test]
fn no_depth_comes_before_no_page_and_already_there_before_both() {
    let operations = [(INSERT, 12), (INSERT, 19), (INSERT, 8)];
    let mut run = start(2, 1, &[3, 12], &operations);
    for operation in 0..3 {
        run.deal_all(&[operation; 5]);
    }
    assert_eq!(answer(&run, 0), (Code::AlreadyThere, 112, 5));
    assert_eq!(answer(&run, 1), (Code::NoDepth, 0, 5));
    assert_eq!(answer(&run, 2), (Code::NoPage, 0, 5));
    assert_eq!(log(&run), [(3, 0), (8, 1), (13, 2)]);
}

/// Of two inserts that need the last page, the one whose turn (d) is first
/// gets it, though it began later. Calls 4, 5, 7 and 8 have indexes 0, 2, 1 and 3
/// at depth 2.
#[test]
fn pages_are_counted_on_turn_d() {
    let mut file = ChargeFile::empty(2, 1, 3);
    file.in_use = 2;
    file.directory = vec![1, 1, 2, 2];
    for (number, call) in [(1, 4), (2, 5)] {
        let page = file.page_mut(number);
        (page.depth, page.pattern) = (1, number as u32 - 1);
        page.records.push(Record { call, charge: 0 });
    }
    let insert = |call| Operation {
        kind: INSERT,
        call,
        charge: 1,
    };
    let mut run = Run::new(&Job {
        file,
        operations: vec![insert(7), insert(8)],
        turns: Vec::new(),
    });
    run.deal_all(&[0, 0, 0, 1, 1, 1, 1, 0]);
    assert_eq!(answer(&run, 0), (Code::NoPage, 0, 4));
    assert_eq!(answer(&run, 1), (Code::NotYet, 0, 4));
    assert_eq!(run.shared.file.in_use, 3);
    run.deal_all(&[1; 5]);
    assert_eq!(answer(&run, 1), (Code::Stored, 1, 9));
}
