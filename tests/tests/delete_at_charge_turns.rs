//! "Delete only at this charge", on small jobs reckoned by hand in which the
//! turns of several operations come in between: what counts is the charge that
//! is there at turn (d), in the page that the call's entry names. Of the calls,
//! which are those of `CALLS_BY_FIRST_BITS`, 10 and 13 have index 0 at depth 1, 12
//! and 15 index 1.

use chargefile_tests::by_hand::*;
use chargefile_tests::file::ChargeFile;
use chargefile_tests::job::Operation;

/// The page of delete 10 is let go by the turn behind its (d), and delete 12,
/// which has waited for it twice, goes on.
#[test]
fn another_that_waits_can_go_on() {
    let file = one_page(&[(10, 5), (12, 70)]);
    let operations = [delete_at(10, 6), delete_at(12, 70)];
    let mut turns = vec![(1, 1), (0, 4), (1, 2)];
    let now = told(&file, &operations, &turns);
    assert_eq!(now.answers, [(DIFFERS, 0, 4, 5), (NOT_YET, 0, 1, 0)]);
    assert_eq!((now.log, now.under_way), (vec![(4, 0)], 2));
    turns.extend([(0, 1), (1, 5)]);
    let now = told(&file, &operations, &turns);
    assert_eq!(now.answers, [(DIFFERS, 0, 5, 5), (DELETED, 0, 6, 70)]);
    assert_eq!(now.log, [(4, 0), (11, 1)]);
    assert_eq!(now.file, bytes(&one_page(&[(10, 5)])));
}

/// They ask for one call at two charges, and both have read their entry.
#[test]
fn of_two_deletes_the_first_to_lock_decides_first() {
    let file = one_page(&[(10, 5)]);
    let operations = [delete_at(10, 6), delete_at(10, 5)];
    let now = told(&file, &operations, &[(0, 1), (1, 1), (0, 4), (1, 5)]);
    assert_eq!(now.answers, [(DIFFERS, 0, 5, 5), (DELETED, 0, 6, 5)]);
    assert_eq!(now.log, [(4, 0), (9, 1)]);
    assert_eq!(now.file, bytes(&one_page(&[])));
    let now = told(&file, &operations, &[(0, 1), (1, 1), (1, 5), (0, 4)]);
    assert_eq!(now.answers, [(ABSENT, 0, 5, 0), (DELETED, 0, 6, 5)]);
    assert_eq!(now.log, [(5, 1), (9, 0)]);
    assert_eq!(now.file, bytes(&one_page(&[])));
}

/// Operation 0 reads its entry while call 10 is there at 5; then operation 1
/// strikes the call out, and operation 2 stores it anew.
fn charged_anew(asked: u32, anew: u32) -> Told {
    let operations = [delete_at(10, asked), delete(10), insert(10, anew)];
    let turns = [(0, 1), (1, 6), (2, 6), (0, 10)];
    let told = told(&one_page(&[(10, 5)]), &operations, &turns);
    assert_eq!(
        told.answers[1..],
        [(DELETED, 0, 6, 5), (STORED, 0, 6, anew)]
    );
    assert_eq!(told.log[..2], [(5, 1), (11, 2)]);
    told
}

#[test]
fn what_counts_is_the_charge_at_turn_d() {
    for (asked, anew) in [(5, 8), (5, 0), (5, u32::MAX)] {
        let told = charged_anew(asked, anew);
        assert_eq!(told.answers[0], (DIFFERS, 0, 5, anew));
        assert_eq!(told.log[2..], [(15, 0)]);
        assert_eq!(told.file, bytes(&one_page(&[(10, anew)])));
    }
    for (asked, anew) in [(8, 8), (5, 5), (0, 8), (0, 0)] {
        let told = charged_anew(asked, anew);
        assert_eq!(told.answers[0], (DELETED, 0, 6, anew));
        assert_eq!(told.log[2..], [(16, 0)]);
        assert_eq!(told.file, bytes(&one_page(&[])));
    }
}

/// The call that it asked for is gone when it comes to turn (d).
#[test]
fn a_call_that_is_gone_at_turn_d_is_absent() {
    let operations = [delete_at(10, 5), delete_at(10, 5)];
    let turns = [(0, 1), (1, 6), (0, 10)];
    let now = told(&one_page(&[(10, 5)]), &operations, &turns);
    assert_eq!(now.answers, [(ABSENT, 0, 5, 0), (DELETED, 0, 6, 5)]);
    assert_eq!(now.log, [(5, 1), (9, 0)]);
}

/// The call came while the delete was under way, and it is there at turn (d).
#[test]
fn a_call_that_has_come_by_turn_d() {
    let turns = [(0, 1), (1, 6), (0, 10)];
    let now = told(&one_page(&[]), &[delete_at(10, 5), insert(10, 8)], &turns);
    assert_eq!(now.answers, [(DIFFERS, 0, 5, 8), (STORED, 0, 6, 8)]);
    let now = told(&one_page(&[]), &[delete_at(10, 8), insert(10, 8)], &turns);
    assert_eq!(now.answers, [(DELETED, 0, 6, 8), (STORED, 0, 6, 8)]);
}

/// It has locked the page, or has also verified it, or has decided: all others
/// that would change the page wait, and a search finds what is still there.
#[test]
fn a_page_that_is_held_does_not_change() {
    let file = one_page(&[(10, 5), (12, 70)]);
    let others = [insert(10, 9), delete(10), delete_at(10, 6), delete(12)];
    let operations = [&[delete_at(10, 5)][..], &others, &[search(10)]].concat();
    for first in 2..=4 {
        let mut turns = vec![(0, first), (1, 5), (2, 5), (3, 5), (4, 5), (5, 2)];
        turns.push((0, 6 - first));
        let now = told(&file, &operations, &turns);
        assert_eq!(now.answers[0], (DELETED, 0, 6, 5), "after {first} turns");
        assert_eq!(now.answers[1..5], [(NOT_YET, 0, 1, 0); 4]);
        assert_eq!(now.answers[5], (FOUND, 0, 2, 5));
        // Twenty-two turns of others lie between its first ones and the rest.
        assert_eq!(now.log, [(first + 21, 5), (26, 0)]);
        assert_eq!(now.under_way, 4);
        // Then the others go on, one after the other.
        turns.extend([(2, 10), (1, 10), (3, 10), (4, 10)]);
        let now = told(&file, &operations, &turns);
        let wanted = [
            (STORED, 0, 6, 9),
            (ABSENT, 0, 5, 0),
            (DIFFERS, 0, 5, 9),
            (DELETED, 0, 6, 70),
        ];
        assert_eq!(now.answers[1..5], wanted);
        assert_eq!(now.file, bytes(&one_page(&[(10, 9)])));
    }
}

/// Between its (d) and its unlocking too the page is held.
#[test]
fn a_page_is_held_until_a_9_is_over() {
    let operations = [delete_at(10, 6), insert(10, 6), delete(10)];
    let mut turns = vec![(0, 4), (1, 5), (2, 5)];
    let now = told(&one_page(&[(10, 5)]), &operations, &turns);
    let waiting = (NOT_YET, 0, 1, 0);
    assert_eq!(now.answers, [(DIFFERS, 0, 4, 5), waiting, waiting]);
    turns.extend([(0, 1), (2, 5), (1, 5)]);
    let now = told(&one_page(&[(10, 5)]), &operations, &turns);
    let wanted = [(DIFFERS, 0, 5, 5), (STORED, 0, 6, 6), (DELETED, 0, 6, 5)];
    assert_eq!(now.answers, wanted);
    assert_eq!(now.log, [(3, 0), (18, 2), (23, 1)]);
    assert_eq!(now.file, bytes(&one_page(&[(10, 6)])));
}

/// A split at depth 1 takes call 12 to page 2, and leaves call 10.
fn full_page() -> ChargeFile {
    one_page(&[(10, 50), (12, 70)])
}

/// Delete 12 reads that its entry names page 1 before insert 15 splits that page:
/// it locks page 1, lets it go, and decides in page 2.
fn after_a_retry(others: &[Operation], between: &[(usize, usize)], asked: u32) -> Told {
    let operations = [&[insert(15, 7), delete_at(12, asked)][..], others].concat();
    let turns = [&[(1, 1), (0, 9)][..], between, &[(1, 12)]].concat();
    let told = told(&full_page(), &operations, &turns);
    assert_eq!(told.answers[0], (STORED, 1, 9, 7));
    assert_eq!(told.log[0], (6, 0));
    told
}

/// What insert 15 and what comes behind it leave.
fn two_pages(records: &[(u32, u32)]) -> Option<Vec<u8>> {
    bytes(&file(1, 2, &[(1, 0, &[(10, 50)]), (1, 1, records)]))
}

#[test]
fn a_9_after_a_retry() {
    let told = after_a_retry(&[], &[], 71);
    assert_eq!(told.answers[1], (DIFFERS, 1, 8, 70));
    assert_eq!(told.log[1..], [(15, 1)]);
    assert_eq!(told.file, two_pages(&[(12, 70), (15, 7)]));
    let told = after_a_retry(&[], &[], 70);
    assert_eq!(told.answers[1], (DELETED, 1, 9, 70));
    assert_eq!(told.log[1..], [(16, 1)]);
    assert_eq!(told.file, two_pages(&[(15, 7)]));
}

/// And in page 2 the call is struck out and stored anew before it gets there.
#[test]
fn a_9_after_a_retry_by_the_charge_in_the_other_page() {
    let (others, between) = ([delete_at(12, 70), insert(12, 71)], [(2, 6), (3, 6)]);
    let told = after_a_retry(&others, &between, 70);
    assert_eq!(
        told.answers[1..],
        [(DIFFERS, 1, 8, 71), (DELETED, 1, 6, 70), (STORED, 1, 6, 71)]
    );
    assert_eq!(told.log[1..], [(14, 2), (20, 3), (27, 1)]);
    assert_eq!(told.file, two_pages(&[(12, 71), (15, 7)]));
    let told = after_a_retry(&others, &between, 71);
    assert_eq!(told.answers[1], (DELETED, 1, 9, 71));
    assert_eq!(told.log[3..], [(28, 1)]);
    assert_eq!(told.file, two_pages(&[(15, 7)]));
}

/// Insert 13 has written page 2 and entry 1 but not the old page, where call 12 is
/// still written at 70. The file has it at 80, in page 2: that is what counts.
#[test]
fn a_record_left_behind_in_the_old_page_does_not_count() {
    for (asked, answer, moment) in [
        (70, (DIFFERS, 1, 5, 80), 22),
        (80, (DELETED, 1, 6, 80), 23),
        (0, (DELETED, 1, 6, 80), 23),
    ] {
        let operations = [
            insert(13, 90),
            delete_at(12, 70),
            insert(12, 80),
            delete_at(12, asked),
        ];
        let turns = [(0, 7), (1, 6), (2, 6), (3, 6), (0, 2)];
        let now = told(&full_page(), &operations, &turns);
        let others = [(STORED, 0, 9, 90), (DELETED, 1, 6, 70), (STORED, 1, 6, 80)];
        assert_eq!((&now.answers[..3], now.answers[3]), (&others[..], answer));
        assert_eq!(now.log, [(11, 1), (17, 2), (moment, 3), (25, 0)]);
    }
}
