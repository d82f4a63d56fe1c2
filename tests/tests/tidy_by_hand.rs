//! Small files tidied by hand ("Tidying between runs").
//!
//! The calls are those of `CALLS_BY_FIRST_BITS`: the pseudo key of 4 and 11 begins with 00, of 7 and 10 with 01, of 3, 5 and 12 with 10 and of 8 and 15
//! with 11.

use chargefile_tests::by_hand::lowest_calls;
use chargefile_tests::file::ChargeFile;
use chargefile_tests::job::{Job, Kind, Operation};
use chargefile_tests::page::{Page, Record};
use chargefile_tests::{check, tidy, Outcome};

/// Enough for every file.
const ENOUGH: usize = 17_952;

/// A page: depth, pattern and calls. A call's charge is a hundred more.
fn page(depth: u32, pattern: u32, calls: &[u32]) -> Page {
    let record = |&call: &u32| Record {
        call,
        charge: 100 + call,
    };
    Page {
        depth,
        pattern,
        records: calls.iter().map(record).collect(),
    }
}

/// A file of these pages in this order, which must be sound: g, c, P.
fn file((depth, capacity, page_count): (u32, usize, usize), pages: &[Page]) -> ChargeFile {
    let mut file = ChargeFile::empty(depth, capacity, page_count);
    file.in_use = pages.len();
    file.pages[..pages.len()].clone_from_slice(pages);
    for j in 0..1 << depth {
        let owner = pages.iter().position(|page| page.owns(j, depth));
        file.directory[j] = 1 + owner.expect("a page for every entry");
    }
    assert_eq!(check(&Job::charge_file(&file)), None, "{file:?}");
    file
}

/// The file tidied at a depth.
fn tidied(file: &ChargeFile, depth: u64) -> ChargeFile {
    match tidy(&Job::charge_file(file), depth, ENOUGH) {
        Outcome::Done { result } => Job::from_bytes(&result).file,
        refused => panic!("{refused:?}"),
    }
}

fn refused(number: u32, place: u32) -> Outcome {
    Outcome::Refused { number, place }
}

/// Byte for byte: g 1, c 2, P 2; page 1 has calls 4 and 7, page 2 is empty.
#[test]
fn the_bytes_of_a_tidied_file() {
    let came_in = file((1, 2, 2), &[page(1, 0, &[4, 7]), page(1, 1, &[])]);
    let wanted = [
        // version 2, g 0, c 2, P 2, U 1, no operations, no turns
        &[2, 0, 0, 2, 2, 0, 1, 0, 0, 0, 0, 0][..],
        // the directory at 32, the page table at 34, the rest at 74, which is the total
        &[32, 0, 0, 0, 34, 0, 0, 0, 74, 0, 0, 0],
        &[74, 0, 0, 0, 74, 0, 0, 0],
        // the one entry
        &[1, 0],
        // page 1: depth 0, 2 records, pattern 0
        &[0, 2, 0, 0, 4, 0, 0, 0, 104, 0, 0, 0],
        &[7, 0, 0, 0, 107, 0, 0, 0],
        // page 2, no longer in use
        &[0; 20],
    ]
    .concat();
    let outcome = tidy(&Job::charge_file(&came_in), 0, 74);
    assert_eq!(outcome, Outcome::Done { result: wanted });
}

#[test]
fn two_thin_pages_join() {
    let thin = file((1, 2, 2), &[page(1, 0, &[4]), page(1, 1, &[5])]);
    let joined = file((1, 2, 2), &[page(0, 0, &[4, 5])]);
    assert_eq!(tidied(&thin, 1), joined);
    let in_page_order = file((1, 2, 2), &[page(1, 1, &[5]), page(1, 0, &[4])]);
    assert_eq!(tidied(&in_page_order, 1), joined);
}

#[test]
fn to_just_c_records_and_no_more() {
    let pages = [page(1, 0, &[4, 7]), page(1, 1, &[5])];
    let full = file((1, 3, 2), &[page(0, 0, &[4, 5, 7])]);
    assert_eq!(tidied(&file((1, 3, 2), &pages), 1), full);
    let one_more = file((1, 2, 2), &pages);
    assert_eq!(tidied(&one_more, 1), one_more);
}

/// The calls of one page do not all stand before those of the other. The pseudo key of call 4,000,000,000 begins with 0.
#[test]
fn the_calls_of_a_joined_page_rise() {
    let pages = [page(1, 0, &[4, 7, 4_000_000_000]), page(1, 1, &[3, 5, 8])];
    let joined = page(0, 0, &[3, 4, 5, 7, 8, 4_000_000_000]);
    let wanted = file((0, 6, 3), &[joined]);
    assert_eq!(tidied(&file((2, 6, 3), &pages), 0), wanted);
}

/// Only when the two deep pages are one can that one join the third.
#[test]
fn three_pages_come_to_one_in_two_joins() {
    let pages = [page(1, 0, &[4]), page(2, 2, &[5]), page(2, 3, &[8])];
    let wanted = file((2, 3, 4), &[page(0, 0, &[4, 5, 8])]);
    assert_eq!(tidied(&file((2, 3, 4), &pages), 2), wanted);
    // with room for two, the joined page stays beside the third
    let wanted = file((2, 2, 4), &[page(1, 0, &[4]), page(1, 1, &[5, 8])]);
    assert_eq!(tidied(&file((2, 2, 4), &pages), 2), wanted);
}

/// Page 0 is empty, and would join 1 if there were one. But 10 and 11 have too many records to be that page, and with either alone it makes no pair.
#[test]
fn a_page_of_another_depth_does_not_join() {
    let pages = [page(1, 0, &[]), page(2, 2, &[3, 12]), page(2, 3, &[8, 15])];
    let as_it_is = file((2, 3, 3), &pages);
    assert_eq!(tidied(&as_it_is, 2), as_it_is);
}

/// 01 and 10 have two records together, but differ in both bits; so do 00 and 10 in the first bit.
#[test]
fn only_the_last_bit_may_differ() {
    let pages = [
        page(2, 0, &[4, 11]),
        page(2, 1, &[7]),
        page(2, 2, &[3]),
        page(2, 3, &[8, 15]),
    ];
    let as_it_is = file((2, 2, 4), &pages);
    assert_eq!(tidied(&as_it_is, 2), as_it_is);
    let pages = [
        page(2, 0, &[4]),
        page(2, 1, &[7, 10]),
        page(2, 2, &[3]),
        page(2, 3, &[8, 15]),
    ];
    let as_it_is = file((2, 2, 4), &pages);
    assert_eq!(tidied(&as_it_is, 2), as_it_is);
}

#[test]
fn pages_are_numbered_by_their_first_entry() {
    let (first, second) = (page(2, 0, &[4, 11]), page(2, 1, &[7]));
    let third = page(1, 1, &[3, 8]);
    let mixed = [third.clone(), second.clone(), first.clone()];
    let tidy = file((2, 2, 5), &[first, second, third]);
    let left = tidied(&file((2, 2, 5), &mixed), 2);
    assert_eq!(left, tidy);
    assert_eq!(left.directory, [1, 2, 3, 3]);
    // a page that came of a join goes by its first entry too
    let pages = [page(2, 3, &[8]), page(1, 0, &[4, 7]), page(2, 2, &[3])];
    let left = tidied(&file((2, 2, 3), &pages), 2);
    let wanted = [page(1, 0, &[4, 7]), page(1, 1, &[3, 8])];
    assert_eq!(left, file((2, 2, 3), &wanted));
    assert_eq!(left.directory, [1, 1, 2, 2]);
}

/// P and c are what they were, whatever comes of the pages and the directory.
#[test]
fn pages_no_longer_in_use_are_zero() {
    let pages = [page(2, 0, &[]), page(2, 1, &[]), page(1, 1, &[5])];
    let left = tidied(&file((2, 4, 9), &pages), 0);
    assert_eq!((left.in_use, left.capacity, left.pages.len()), (1, 4, 9));
    assert_eq!(left.pages[0], page(0, 0, &[5]));
    assert!(left.pages[1..].iter().all(|page| *page == Page::default()));
}

/// Nothing joins here, so only the directory is another.
#[test]
fn the_directory_is_deeper_or_less_deep() {
    let pages = [page(1, 0, &[4]), page(1, 1, &[5])];
    let at = |depth| file((depth, 1, 2), &pages);
    for depth in [1, 2, 3, 8] {
        assert_eq!(tidied(&at(1), u64::from(depth)), at(depth));
        assert_eq!(tidied(&at(8), u64::from(depth)), at(depth));
    }
    let eight = tidied(&at(1), 8).directory;
    assert_eq!(eight, [[1; 128], [2; 128]].concat());
    for from in [1, 3, 8] {
        let bytes = Job::charge_file(&at(from));
        assert_eq!(tidy(&bytes, 0, ENOUGH), refused(19, 0));
    }
}

/// The smallest file there is, at every depth.
#[test]
fn one_empty_page_at_every_depth() {
    let blank = Job::charge_file(&file((0, 1, 1), &[page(0, 0, &[])]));
    for depth in 0..=8 {
        let wanted = file((depth, 1, 1), &[page(0, 0, &[])]);
        let result = Job::charge_file(&wanted);
        assert_eq!(result.len(), 32 + (2 << depth) + 12);
        let outcome = tidy(&blank, u64::from(depth), result.len());
        assert_eq!(outcome, Outcome::Done { result });
    }
}

/// "Wanted depth above 8": also where its low bits are 0 to 8.
#[test]
fn a_depth_above_eight_is_refused() {
    let blank = Job::charge_file(&file((0, 1, 1), &[page(0, 0, &[])]));
    for depth in [9, 10, 255, 256, 264, 1 << 16, 1 << 32, (1 << 32) + 8] {
        assert_eq!(tidy(&blank, depth, ENOUGH), refused(19, 0), "{depth}");
    }
    for depth in [1 << 63, u64::MAX - 8, u64::MAX] {
        assert_eq!(tidy(&blank, depth, ENOUGH), refused(19, 0), "{depth}");
    }
}

/// It is the pages left that count, and not those that came in: three come to one, and depth 0 is taken.
#[test]
fn a_depth_below_a_page_that_came_in() {
    let pages = [page(1, 0, &[4]), page(2, 2, &[5]), page(2, 3, &[8])];
    assert_eq!(tidied(&file((2, 3, 3), &pages), 0).directory, [1]);
    let two_left = file((2, 2, 3), &pages);
    assert_eq!(tidied(&two_left, 1).directory, [1, 2]);
    let outcome = tidy(&Job::charge_file(&two_left), 0, ENOUGH);
    assert_eq!(outcome, refused(19, 0));
}

/// The largest: 32, 2 * 256 and 256 * 68 bytes. Each page has five records, so that no two can join.
#[test]
fn the_largest_file() {
    let calls = |pattern| lowest_calls(pattern, 8).take(5).collect::<Vec<u32>>();
    let pages: Vec<Page> = (0..256).map(|p| page(8, p, &calls(p))).collect();
    let largest = file((8, 8, 256), &pages);
    let bytes = Job::charge_file(&largest);
    assert_eq!(bytes.len(), 17_952);
    assert_eq!(tidy(&bytes, 8, 17_951), refused(11, 0));
    let outcome = tidy(&bytes, 8, 17_952);
    assert!(outcome == Outcome::Done { result: bytes });
}

/// Each refusal comes before those below it, which the same call would meet as well.
#[test]
fn the_order_of_refusals() {
    let pages = [page(1, 0, &[4, 7]), page(1, 1, &[5])];
    let operation = Operation {
        kind: Kind::Search,
        call: 5,
        charge: 0,
    };
    let job = Job {
        file: file((1, 2, 2), &pages),
        operations: vec![operation],
        turns: vec![1],
    };
    // the turn names no operation; there is one; the depth is too large; there is no room
    let mut bytes = job.to_bytes();
    assert_eq!(tidy(&bytes, 9, 0), refused(10, 86));
    let turn = bytes.len() - 2;
    bytes[turn] = 0;
    assert_eq!(tidy(&bytes, 9, 0), refused(18, 8));
    assert_eq!(tidy(&bytes, 1, ENOUGH), refused(18, 8));
    let turns = vec![];
    let without_turns = Job {
        turns,
        ..job.clone()
    };
    let outcome = tidy(&without_turns.to_bytes(), 1, ENOUGH);
    assert_eq!(outcome, refused(18, 8));
    let alone = Job::charge_file(&job.file);
    assert_eq!(tidy(&alone, 9, 0), refused(19, 0));
    assert_eq!(tidy(&alone, 0, 0), refused(19, 0));
    assert_eq!(tidy(&alone, 1, 0), refused(11, 0));
    assert_eq!(tidy(&alone, 1, alone.len() - 1), refused(11, 0));
    let done = tidy(&alone, 1, alone.len());
    assert_eq!(done, Outcome::Done { result: alone });
}

/// It is refused before the depth and the room are looked at.
#[test]
fn a_file_of_another_version_is_refused() {
    let mut bytes = Job::charge_file(&file((0, 1, 1), &[page(0, 0, &[])]));
    assert_eq!(bytes[..2], [2, 0]);
    for version in [0u16, 1, 3, 257, 258] {
        bytes[..2].copy_from_slice(&version.to_le_bytes());
        for (depth, room) in [(0, ENOUGH), (9, 0)] {
            assert_eq!(tidy(&bytes, depth, room), refused(2, 0), "{version}");
        }
    }
}

/// The room that counts is the tidied file's, be it shorter or longer than the one that came in.
#[test]
fn the_room_is_the_tidied_files() {
    let came_in = Job::charge_file(&file((3, 2, 1), &[page(0, 0, &[4])]));
    assert_eq!(came_in.len(), 32 + 16 + 20);
    for (depth, length) in [(0, 54), (2, 60), (3, 68), (4, 84), (8, 564)] {
        assert_eq!(tidy(&came_in, depth, length - 1), refused(11, 0));
        let outcome = tidy(&came_in, depth, length);
        let Outcome::Done { result } = outcome else {
            panic!("depth {depth}: {outcome:?}");
        };
        assert_eq!(result.len(), length);
    }
}
