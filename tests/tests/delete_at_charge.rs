//! "Delete only at this charge", on small jobs reckoned by hand, one operation
//! after another: what is struck out and what is not, the answer's bytes, the
//! file's, and what is refused. Of the calls, which are those of
//! `CALLS_BY_FIRST_BITS`, 10 and 13 have index 0 at depth 1, 12 and 15 index 1.

use chargefile_tests::answer::{Code, CODES};
use chargefile_tests::by_hand::*;
use chargefile_tests::check;
use chargefile_tests::job::Operation;
use chargefile_tests::plain_list::{told as told_to_the_list, PlainList};
use chargefile_tests::report;
use chargefile_tests::result;
use chargefile_tests::run::{result_bytes, Run};
use chargefile_tests::turn::Turned;

/// The ends, and charges that differ from one another in one byte or in one half.
const CHARGES: [u32; 16] = [
    0,
    1,
    2,
    0x0100,
    0x0001_0000,
    0x0100_0000,
    0x0101_0101,
    0x0101_0100,
    0x0101_0001,
    0x0100_0101,
    0x0001_0101,
    0x7fff_ffff,
    0x8000_0000,
    0xffff_0000,
    0xffff_fffe,
    u32::MAX,
];

/// One delete of call 10, which is there at a charge; call 12 is there at another.
fn delete_10(asked: u32, held: u32) -> Told {
    one_by_one(&one_page(&[(10, held), (12, 70)]), &[delete_at(10, asked)])
}

/// It takes (a), (b), (c), (d), the page writing, which is its moment, and the
/// unlocking.
fn is_struck(told: &Told, held: u32) {
    assert_eq!(told.answers, [(DELETED, 0, 6, held)]);
    assert_eq!(told.log, [(4, 0)]);
    assert_eq!(told.file, bytes(&one_page(&[(12, 70)])));
}

/// It takes (a), (b), (c), (d), which is its moment, and the unlocking: "nothing
/// changes".
fn differs(told: &Told, held: u32) {
    assert_eq!(told.answers, [(DIFFERS, 0, 5, held)]);
    assert_eq!(told.log, [(3, 0)]);
    assert_eq!(told.file, bytes(&one_page(&[(10, held), (12, 70)])));
}

#[test]
fn equal_is_struck_out() {
    is_struck(&delete_10(5, 5), 5);
    is_struck(&delete_10(u32::MAX, u32::MAX), u32::MAX);
}

#[test]
fn another_charge_differs_and_the_files_is_told() {
    differs(&delete_10(6, 5), 5);
    differs(&delete_10(5, 6), 6);
    differs(&delete_10(u32::MAX, 5), 5);
    differs(&delete_10(5, u32::MAX), u32::MAX);
    differs(&delete_10(u32::MAX, u32::MAX - 1), u32::MAX - 1);
}

#[test]
fn zero_strikes_out_at_any_charge() {
    for held in CHARGES {
        is_struck(&delete_10(0, held), held);
    }
}

#[test]
fn a_call_at_zero_is_struck_out_by_zero_alone() {
    is_struck(&delete_10(0, 0), 0);
    for asked in &CHARGES[1..] {
        differs(&delete_10(*asked, 0), 0);
    }
}

/// Each of these with each: they are struck out on the diagonal alone, and where
/// nothing is asked.
#[test]
fn each_of_some_charges_with_each() {
    let (mut struck, mut left) = (0, 0);
    for (i, asked) in CHARGES.into_iter().enumerate() {
        for (k, held) in CHARGES.into_iter().enumerate() {
            let told = delete_10(asked, held);
            if i == 0 || i == k {
                is_struck(&told, held);
                struck += 1;
            } else {
                differs(&told, held);
                left += 1;
            }
        }
    }
    assert_eq!((struck, left), (31, 225));
}

/// Every bit counts, in each of the four bytes, and from 0 and from 2^32 - 1 too.
#[test]
fn charges_that_differ_in_one_bit_or_one_byte() {
    for held in [0x0403_0201, 0x8000_0080, u32::MAX, 0] {
        for bit in 0..32 {
            differs(&delete_10(held ^ 1 << bit, held), held);
        }
        for byte in 0..4 {
            differs(&delete_10(held ^ 0xff << (8 * byte), held), held);
        }
    }
}

/// Whatever is asked, a missing call is absent, with charge 0.
#[test]
fn a_missing_call_is_absent() {
    let file = one_page(&[(12, 70)]);
    for asked in CHARGES.into_iter().chain([70]) {
        let told = one_by_one(&file, &[delete_at(10, asked)]);
        assert_eq!(told.answers, [(ABSENT, 0, 5, 0)], "asked {asked}");
        assert_eq!((told.log, told.file), (vec![(3, 0)], bytes(&file)));
    }
}

/// The charge that counts is the call's own: 5 is that of call 10, and 70 that of
/// call 12, which stands behind it.
#[test]
fn the_charge_of_another_call_does_not_count() {
    let file = one_page(&[(10, 5), (12, 70)]);
    let operations = [
        delete_at(10, 70),
        delete_at(12, 5),
        delete_at(12, 70),
        delete_at(10, 5),
    ];
    let told = one_by_one(&file, &operations);
    let wanted = [
        (DIFFERS, 0, 5, 5),
        (DIFFERS, 0, 5, 70),
        (DELETED, 0, 6, 70),
        (DELETED, 0, 6, 5),
    ];
    assert_eq!(told.answers, wanted);
    assert_eq!(told.file, bytes(&one_page(&[])));
}

/// "A delete with a charge" of one call after the other, in both orders.
#[test]
fn two_deletes_of_one_call_at_two_charges() {
    let file = one_page(&[(10, 5)]);
    let told = one_by_one(&file, &[delete_at(10, 6), delete_at(10, 5)]);
    assert_eq!(told.answers, [(DIFFERS, 0, 5, 5), (DELETED, 0, 6, 5)]);
    assert_eq!(told.log, [(3, 0), (24, 1)]);
    assert_eq!(told.file, bytes(&one_page(&[])));
    let told = one_by_one(&file, &[delete_at(10, 5), delete_at(10, 6)]);
    assert_eq!(told.answers, [(DELETED, 0, 6, 5), (ABSENT, 0, 5, 0)]);
    assert_eq!(told.log, [(4, 0), (23, 1)]);
}

/// "Its moment is turn (d), the next turn unlocks": the code is there with the
/// fourth turn, and with the fifth the operation is done, whatever is dealt on.
#[test]
fn turn_by_turn() {
    let file = one_page(&[(10, 5), (12, 70)]);
    for turns in 0..9 {
        let told = told(&file, &[delete_at(10, 6)], &[(0, turns)]);
        let wanted = match turns {
            0..=3 => (NOT_YET, 0, turns, 0),
            4 => (DIFFERS, 0, 4, 5),
            _ => (DIFFERS, 0, 5, 5),
        };
        assert_eq!(told.answers, [wanted], "{turns} turns");
        let moment: &[(usize, usize)] = if turns < 4 { &[] } else { &[(3, 0)] };
        assert_eq!(told.log, moment, "{turns} turns");
        let under_way = (1..=4).contains(&turns);
        assert_eq!(told.under_way, usize::from(under_way), "{turns} turns");
        let left = bytes(&file).filter(|_| !under_way);
        assert_eq!(told.file, left, "{turns} turns");
    }
}

/// No turn of it writes anything, and its page is locked from (b) to the
/// unlocking.
#[test]
fn nothing_changes_on_any_turn() {
    let file = file(1, 3, &[(1, 0, &[(10, 5)]), (1, 1, &[(12, 70), (15, 0)])]);
    for (call, page) in [(10, 1), (12, 2), (15, 2)] {
        let mut run = Run::new(&job(&file, &[delete_at(call, 6)], &[]));
        for turns in 1..=5 {
            assert_eq!(run.deal(0), Turned::Did);
            assert_eq!(run.shared.file, file, "call {call}, {turns} turns");
            let locked = [1, 2, 3].map(|number| run.shared.locked(number));
            let held = (2..=4).contains(&turns);
            let wanted = [1, 2, 3].map(|number| held && number == page);
            assert_eq!(locked, wanted, "call {call}, {turns} turns");
        }
        assert_eq!(run.deal(0), Turned::Idle);
        assert_eq!(run.log()[0].moment, 3);
    }
}

/// "The page read in turn (d)", less one.
#[test]
fn the_page_behind_a_9() {
    let pages: [ByHand; 2] = [(1, 0, &[(10, 5)]), (1, 1, &[(12, 70), (15, 0)])];
    let operations = [delete_at(10, 70), delete_at(12, 5), delete_at(15, 70)];
    let rising = file(1, 2, &pages);
    let wanted = [(DIFFERS, 0, 5, 5), (DIFFERS, 1, 5, 70), (DIFFERS, 1, 5, 0)];
    assert_eq!(one_by_one(&rising, &operations).answers, wanted);
    let falling = file(1, 2, &[pages[1], pages[0]]);
    let wanted = [(DIFFERS, 1, 5, 5), (DIFFERS, 0, 5, 70), (DIFFERS, 0, 5, 0)];
    assert_eq!(one_by_one(&falling, &operations).answers, wanted);
}

/// Page 256 is that of entry 255, and calls 68 and 293 belong there.
#[test]
fn a_9_on_page_256() {
    let pages: Vec<ByHand> = (0..255).map(|j| (8, j, &[][..])).collect();
    let last: ByHand = (8, 255, &[(68, 256), (293, 1)]);
    let file = file(8, 256, &[pages, vec![last]].concat());
    let told = one_by_one(&file, &[delete_at(68, 1), delete_at(293, 256)]);
    assert_eq!(told.answers, [(DIFFERS, 255, 5, 256), (DIFFERS, 255, 5, 1)]);
    assert_eq!(told.file, bytes(&file));
}

/// "The plain list that the log is tried against gains this operation." It is
/// told nothing of a 9.
#[test]
fn the_plain_list() {
    let held = |records: &[(u32, u32)]| PlainList::of(&one_page(records).holds()).unwrap();
    let came_in = held(&[(10, 5), (12, 0)]);
    for (call, asked, wanted) in [
        (10, 6, (Code::Differs, 5)),
        (10, u32::MAX, (Code::Differs, 5)),
        (10, 5 + 256, (Code::Differs, 5)),
        (12, 5, (Code::Differs, 0)),
        (13, 5, (Code::Absent, 0)),
        (13, 0, (Code::Absent, 0)),
    ] {
        let mut list = came_in.clone();
        let fed = list.feed(&delete_at(call, asked), None);
        assert_eq!((fed, list), (wanted, came_in.clone()), "{call}, {asked}");
    }
    for asked in [0, 5] {
        let mut list = came_in.clone();
        assert_eq!(list.feed(&delete_at(10, asked), None), (Code::Deleted, 5));
        assert_eq!(list, held(&[(12, 0)]));
    }
    for code in CODES {
        assert_eq!(told_to_the_list(&delete_at(10, 5), code), None);
    }
}

#[test]
fn it_is_printed_as_differs() {
    let operations = [delete_at(10, 6), delete_at(12, 70), search(10)];
    let file = one_page(&[(10, 5), (12, 70)]);
    let job = job(&file, &operations, &[(0, 5), (1, 6), (2, 2)]);
    let text = "\
job depth 1 capacity 2 pages 2 operations 3 turns 13
op 0 delete 10 differs 5 turns 5
op 1 delete 12 deleted 70 turns 6
op 2 search 10 found 5 turns 2
at 3 op 0
at 9 op 1
at 12 op 2
page 1 depth 0 pattern 0 : 10=5
";
    assert_eq!(String::from_utf8(report(&job.to_bytes())).unwrap(), text);
}

/// The job's version is 2, and no other is taken; so is the result's. A reader of
/// results takes code 9 and no higher one.
#[test]
fn versions_and_the_reader_of_results() {
    let job = job(&one_page(&[(10, 5)]), &[delete_at(10, 6)], &[(0, 5)]).to_bytes();
    assert_eq!(job[..2], [2, 0]);
    for version in [0u16, 1, 3, 257, 258] {
        let other = [&version.to_le_bytes()[..], &job[2..]].concat();
        assert_eq!(check(&other), Some((2, 0)), "version {version}");
    }
    let mut result = result_bytes(&job);
    assert_eq!((&result[..2], result[24]), (&[2, 0][..], 9));
    let code = |result: &[u8]| result::from_bytes(result).map(|told| told.answers[0].code);
    assert_eq!(code(&result), Ok(Code::Differs));
    result[24] = 10;
    assert!(code(&result).is_err());
}

/// A job with one operation; its row stands at 76, behind header, two entries and
/// two pages.
fn row_with(operation: Operation, at: usize, byte: u8) -> Vec<u8> {
    let file = one_page(&[(10, 5), (12, 70)]);
    let mut job = job(&file, &[operation], &[(0, 6)]).to_bytes();
    job[76 + at] = byte;
    job
}

/// A charge "must be" zero in a search alone, and the spare byte in all.
#[test]
fn what_is_refused() {
    for byte in [1, 128, 255] {
        for at in 6..10 {
            assert_eq!(check(&row_with(search(10), at, byte)), Some((9, 76)));
            assert_eq!(check(&row_with(delete(10), at, byte)), None);
            assert_eq!(check(&row_with(delete_at(10, 5), at, byte)), None);
            assert_eq!(check(&row_with(insert(10, 0), at, byte)), None);
        }
        for operation in [search(10), insert(10, 5), delete(10), delete_at(10, 5)] {
            assert_eq!(check(&row_with(operation, 1, byte)), Some((9, 76)));
        }
    }
    assert_eq!(
        check(&row_with(delete_at(10, 5), 0, 1)),
        Some((9, 76)),
        "a search"
    );
    assert_eq!(check(&row_with(delete_at(10, 5), 0, 2)), None, "an insert");
    assert_eq!(check(&row_with(delete_at(10, 5), 0, 4)), Some((9, 76)));
    assert_eq!(report(&row_with(search(10), 9, 1)), b"refused 9 76\n");
}
