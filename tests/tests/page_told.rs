//! The page with the answer, on small jobs reckoned by hand: code and page byte
//! are read from the result's own bytes. What is in the file is charged 100, and
//! what is inserted 7. The calls are those of `CALLS_BY_FIRST_BITS`.

use chargefile_tests::by_hand::*;
use chargefile_tests::file::{ChargeFile, Looked};
use chargefile_tests::key::pseudo_key;
use chargefile_tests::page::Record;
use chargefile_tests::result;
use chargefile_tests::run::result_bytes;

/// A code with its page byte, of an operation that has no moment yet.
const NO_MOMENT: (u8, u8) = (NOT_YET, 0);

/// One page with calls 4 and 5, which have indexes 0 and 1 at depth 1; so have 7
/// and 9 index 0, and 8 and 12 index 1.
fn full_page() -> ChargeFile {
    one_page(&[(4, 100), (5, 100)])
}

/// The same calls in two pages, by their index.
fn two_pages() -> ChargeFile {
    file(1, 2, &[(1, 0, &[(4, 100)]), (1, 1, &[(5, 100)])])
}

#[test]
fn looking_into_a_page_tells_which_it_was() {
    let file = two_pages();
    let record = Record {
        call: 5,
        charge: 100,
    };
    let there = Looked {
        page: 2,
        record: Some(record),
    };
    let missing = |page| Looked { page, record: None };
    assert_eq!(file.look(2, 5), there);
    assert_eq!((file.look(1, 5), file.look(2, 4)), (missing(1), missing(2)));
}

#[test]
fn the_byte_is_the_number_less_one_and_not_the_index() {
    let operations = [search(4), search(5), search(9), search(12)];
    let rising = one_by_one(&two_pages(), &operations);
    let wanted = [(FOUND, 0), (FOUND, 1), (NONE, 0), (NONE, 1)];
    assert_eq!(rising.codes_and_pages(), wanted);
    let falling = file(1, 2, &[(1, 1, &[(5, 100)]), (1, 0, &[(4, 100)])]);
    let wanted = [(FOUND, 1), (FOUND, 0), (NONE, 1), (NONE, 0)];
    let falling = one_by_one(&falling, &operations);
    assert_eq!(falling.codes_and_pages(), wanted);
}

/// Both searches read their entry, insert 7 splits page 1 into calls 4, 7 and 5,
/// and both read page 1, the entry again, and page 2.
#[test]
fn a_search_tells_the_page_last_read() {
    let operations = [insert(7, 7), search(5), search(12)];
    let mut turns = vec![(1, 1), (2, 1), (0, 9), (1, 3), (2, 3)];
    let now = told(&full_page(), &operations, &turns);
    let wanted = [(STORED, 0), (FOUND, 1), NO_MOMENT];
    assert_eq!(now.codes_and_pages(), wanted, "page 2 was read");
    turns.push((2, 1));
    let now = told(&full_page(), &operations, &turns);
    assert_eq!(now.codes_and_pages(), [(STORED, 0), (FOUND, 1), (NONE, 1)]);
}

/// The insert has written page 2 and entry 1 but not the old page, and call 5
/// is deleted from page 2: a search that finds it in page 1 has read page 1.
#[test]
fn a_late_reader_tells_the_page_it_read() {
    let operations = [insert(7, 7), search(5), delete(5)];
    let turns = [(1, 1), (0, 7), (2, 6), (1, 1)];
    let now = told(&full_page(), &operations, &turns);
    assert_eq!(now.codes_and_pages(), [NO_MOMENT, (FOUND, 0), (DELETED, 1)]);
}

#[test]
fn stored_without_a_split() {
    let now = one_by_one(&two_pages(), &[insert(7, 7), insert(8, 7)]);
    assert_eq!(now.codes_and_pages(), [(STORED, 0), (STORED, 1)]);
}

/// Page 2 has calls 5 and 8, indexes 2 and 3 at depth 2, and 8 goes to page 3.
/// Call 12 stays with 5 and is stored as the old page is written, the eighth
/// turn; call 15 goes with 8 and is stored as entry 3 is, the sixth.
#[test]
fn stored_in_the_old_page_or_in_the_new_one() {
    let file = file(2, 3, &[(1, 0, &[(4, 100)]), (1, 1, &[(5, 100), (8, 100)])]);
    for (call, used, byte) in [(12, 8, 1), (15, 6, 2)] {
        let after = |turns| told(&file, &[insert(call, 7)], &[(0, turns)]).codes_and_pages();
        for turns in 0..used {
            assert_eq!(after(turns), [NO_MOMENT], "call {call}, turn {turns}");
        }
        for turns in used..12 {
            assert_eq!(after(turns), [(STORED, byte)], "call {call}, turn {turns}");
        }
    }
}

/// Depth 3, and three new pages each time. The pages' patterns then are, from
/// page 1 on: 0, 100, 11, 101; 0, 10, 110, 111 twice; and 000, 1, 01, 001.
#[test]
fn stored_in_the_first_of_several_new_pages_or_another_or_the_old_one() {
    for (calls, call, used, byte) in [
        ([5, 6], 3, 8, 1),
        ([17, 18], 8, 10, 2),
        ([8, 24], 17, 11, 3),
        ([13, 14], 4, 16, 0),
    ] {
        let file = file(3, 4, &[(0, 0, &calls.map(|call| (call, 100)))]);
        let after = |turns| told(&file, &[insert(call, 7)], &[(0, turns)]).codes_and_pages();
        assert_eq!(after(used - 1), [NO_MOMENT], "call {call}");
        assert_eq!(after(used), [(STORED, byte)], "call {call}");
        assert_eq!(after(20), [(STORED, byte)], "call {call}");
    }
}

#[test]
fn the_rest_tell_the_page_read_in_turn_d() {
    let pages: [ByHand; 2] = [(1, 0, &[(4, 100)]), (1, 1, &[(5, 100), (8, 100)])];
    let operations = [
        insert(5, 7),
        delete(12),
        insert(12, 7),
        delete(5),
        insert(4, 7),
        delete(4),
        delete(4),
    ];
    let wanted = [
        (ALREADY_THERE, 1),
        (ABSENT, 1),
        (NO_DEPTH, 1),
        (DELETED, 1),
        (ALREADY_THERE, 0),
        (DELETED, 0),
        (ABSENT, 0),
    ];
    let now = one_by_one(&file(1, 2, &pages), &operations);
    assert_eq!(now.codes_and_pages(), wanted);
    let now = one_by_one(&file(2, 2, &pages), &[insert(12, 7)]);
    assert_eq!(now.codes_and_pages(), [(NO_PAGE, 1)]);
}

/// Each has read that its entry names page 1 before insert 8 splits that page
/// and takes call 5 to page 2 with it; so each locks page 1, lets it go, and
/// reads page 2 in turn (d).
#[test]
fn the_rest_tell_the_page_of_turn_d_after_a_retry() {
    let others = [insert(5, 7), delete(12), insert(12, 7), delete(5)];
    let codes = [ALREADY_THERE, ABSENT, NO_DEPTH, DELETED];
    for (other, code) in others.into_iter().zip(codes) {
        let turns = [(1, 1), (0, 9), (1, 10)];
        let now = told(&full_page(), &[insert(8, 7), other], &turns);
        assert_eq!(now.codes_and_pages(), [(STORED, 1), (code, 1)], "{other:?}");
    }
    let deeper = file(2, 2, &[(0, 0, &[(4, 100), (5, 100)])]);
    let operations = [insert(8, 7), insert(12, 7)];
    let now = told(&deeper, &operations, &[(1, 1), (0, 10), (1, 10)]);
    assert_eq!(now.codes_and_pages(), [(STORED, 1), (NO_PAGE, 1)]);
}

/// As before, but insert 7 stays in page 1, and page 2 has room.
#[test]
fn stored_after_a_retry() {
    let operations = [insert(7, 7), insert(8, 7)];
    let now = told(&full_page(), &operations, &[(1, 1), (0, 9), (1, 10)]);
    assert_eq!(now.codes_and_pages(), [(STORED, 0), (STORED, 1)]);
}

/// All of them are begun and none is finished, but for the last, which is not
/// begun. All look at page 2.
#[test]
fn the_unfinished_tell_a_page_once_their_moment_is_known() {
    for (operation, turns, wanted) in [
        (insert(8, 7), 5, (STORED, 1)),
        (insert(8, 7), 4, NO_MOMENT),
        (delete(5), 5, (DELETED, 1)),
        (delete(5), 4, NO_MOMENT),
        (insert(5, 7), 4, (ALREADY_THERE, 1)),
        (insert(5, 7), 3, NO_MOMENT),
        (delete(8), 4, (ABSENT, 1)),
        (delete(8), 3, NO_MOMENT),
        (search(12), 2, NO_MOMENT),
        (search(5), 0, NO_MOMENT),
    ] {
        let now = told(&two_pages(), &[operation], &[(0, turns)]);
        let name = format!("{operation:?}, turn {turns}");
        assert_eq!(now.under_way, usize::from(turns > 0), "{name}");
        assert_eq!(now.codes_and_pages(), [wanted], "{name}");
    }
}

/// They are two calls all the same, each with its own record, and no split parts
/// them. The pseudo keys of call 45 and of these two begin with 01000, that of
/// call 0 with 01001: insert 0 takes five pages, and page 3 gets the two.
#[test]
fn two_calls_with_one_pseudo_key() {
    let (low, high) = (141_231_736, 474_790_318);
    assert_eq!([low, high].map(pseudo_key), [0x47c6_07a0; 2]);
    let came_in = file(5, 6, &[(0, 0, &[(low, 100)])]);
    let operations = [
        search(high),
        delete(high),
        insert(high, 7),
        insert(45, 7),
        insert(0, 7),
        delete(low),
        search(low),
        search(high),
    ];
    let wanted = [
        (NONE, 0),
        (ABSENT, 0),
        (STORED, 0),
        (NO_DEPTH, 0),
        (STORED, 5),
        (DELETED, 2),
        (NONE, 2),
        (FOUND, 2),
    ];
    let turns: Vec<(usize, usize)> = (0..operations.len()).map(|i| (i, 40)).collect();
    let now = told(&came_in, &operations, &turns);
    assert_eq!(now.codes_and_pages(), wanted);
    assert_eq!(now.answers[7].3, 7, "the charge is that of the higher call");
}

/// A record for each index, with the lowest call that has it: call 33 for index 0,
/// and call 68 for index 255. Calls 293 and 495 have index 255 too.
fn a_record_for_each_index() -> Vec<[(u32, u32); 1]> {
    let lowest = |j| lowest_calls(j, 8).next();
    let record = |j| [(lowest(j).expect("a call for every index"), 100)];
    (0..256).map(record).collect()
}

/// A page for each entry.
#[test]
fn page_256_has_byte_255() {
    let records = a_record_for_each_index();
    let page = |j: u32| (8, j, &records[j as usize][..]);
    let pages: Vec<ByHand> = (0..256).map(page).collect();
    let operations = [
        search(68),
        search(293),
        delete(293),
        insert(293, 7),
        insert(68, 7),
        insert(495, 7),
        delete(68),
        search(33),
    ];
    let codes = [
        FOUND,
        NONE,
        ABSENT,
        STORED,
        ALREADY_THERE,
        NO_DEPTH,
        DELETED,
    ];
    let mut wanted = codes.map(|code| (code, 255)).to_vec();
    wanted.push((FOUND, 0));
    let now = one_by_one(&file(8, 256, &pages), &operations);
    assert_eq!(now.codes_and_pages(), wanted);

    // Page 255 stands for the last two entries; calls 17, 219 and 432 have index
    // 254.
    let mut pages = pages[..254].to_vec();
    pages.push((7, 127, &[(17, 100), (219, 100)]));
    let split = file(8, 256, &pages);
    let now = one_by_one(&split, &[insert(432, 7), insert(68, 7), search(17)]);
    assert_eq!(
        now.codes_and_pages(),
        [(NO_DEPTH, 254), (STORED, 255), (FOUND, 254)]
    );
}

/// The reader of results reads the page, and takes neither another version nor
/// a page with code 0.
#[test]
fn a_result_is_read_with_its_pages() {
    let operations = [search(5), search(4)];
    let mut result = result_bytes(&job(&full_page(), &operations, &[(0, 2)]).to_bytes());
    let pages = |result: &[u8]| {
        let answers = result::from_bytes(result).map(|contents| contents.answers)?;
        let pages = answers.iter().map(|answer| answer.page).collect();
        Ok::<Vec<Option<usize>>, String>(pages)
    };
    assert_eq!(result[..2], [2, 0], "version 2");
    assert_eq!(pages(&result), Ok(vec![Some(1), None]));
    result[25] = 255;
    assert_eq!(pages(&result), Ok(vec![Some(256), None]));
    result[33] = 1;
    assert!(pages(&result).is_err(), "a page with code 0");
    result[33] = 0;
    result[0] = 1;
    assert!(pages(&result).is_err(), "version 1");
}
