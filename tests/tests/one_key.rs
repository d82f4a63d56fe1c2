//! Calls that share their whole pseudo key: no depth parts them, and everywhere else they are told apart by their numbers.

use chargefile_tests::by_hand::{
    bytes, delete, delete_at, file, insert, one_by_one, one_page, search, told, ABSENT,
    ALREADY_THERE, DELETED, DIFFERS, FOUND, NONE, NO_DEPTH, NO_PAGE, STORED,
};
use chargefile_tests::check::page_place;
use chargefile_tests::file::ChargeFile;
use chargefile_tests::job::{Counts, Job};
use chargefile_tests::key::{index, neighbour, pseudo_key};
use chargefile_tests::one_key::{others, turned, GROUPS};
use chargefile_tests::page::{Page, Record};
use chargefile_tests::{check, tidy, Outcome};

/// Two calls with one key, the lower first.
const PAIR: [u32; 2] = [141_231_736, 474_790_318];

/// The first byte of the second record of page 1 in a file of depth 1: behind the header, two entries, the page's first four bytes and a record.
const SECOND_RECORD: u32 = 32 + 2 * 2 + 4 + 8;

/// Records of these calls by rising number, each with a charge of its own.
fn records(calls: &[u32]) -> Vec<Record> {
    let mut rising = calls.to_vec();
    rising.sort();
    let charge = |call: u32| call % 1_000 + 1;
    let record = |call| Record {
        call,
        charge: charge(call),
    };
    rising.into_iter().map(record).collect()
}

/// A file of so many pages. Page 1, of depth `local`, has these calls, which belong there; beside it stand the empty halves that the splits on the way have
/// left.
fn around(calls: &[u32], capacity: usize, global: u32, local: u32, pages: usize) -> ChargeFile {
    let pattern = |depth| index(calls[0], depth) as u32;
    let page = |depth, pattern, records| Page {
        depth,
        pattern,
        records,
    };
    let half = |depth| page(depth, pattern(depth) ^ 1, Vec::new());
    let mut in_use = vec![page(local, pattern(local), records(calls))];
    in_use.extend((1..=local).map(half));
    let mut file = ChargeFile::empty(global, capacity, pages);
    file.in_use = in_use.len();
    for (number, page) in (1..).zip(in_use) {
        for j in (0..1 << global).filter(|j| page.owns(*j, global)) {
            file.directory[j] = number;
        }
        *file.page_mut(number) = page;
    }
    assert_eq!(check(&Job::charge_file(&file)), None, "{file:?}");
    file
}

/// Each group, whichever of 256 changes is made to it, has one key, and a call of it has the others.
#[test]
fn the_groups_have_one_key() {
    assert_eq!(GROUPS.map(<[u32]>::len), [2, 3, 4, 5, 6, 7, 8, 8]);
    assert!(PAIR.iter().all(|call| GROUPS[2].contains(call)));
    for group in GROUPS {
        assert!(group.windows(2).all(|pair| pair[0] < pair[1]), "rising");
        for by in 0..=255 {
            let calls = turned(group, by);
            let has_it = |call: &u32| pseudo_key(*call) == pseudo_key(calls[0]);
            assert!(calls.iter().all(has_it));
            for own in &calls {
                let rest = calls.iter().filter(|call| *call != own);
                assert_eq!(others(*own), rest.copied().collect::<Vec<_>>());
            }
        }
    }
    assert_eq!(others(1), []);
}

/// All numbers of three bytes, by what comes of them but for its low byte: at most eight have it in common, and a group has all calls of its key.
#[test]
fn no_key_has_more_than_eight_calls() {
    let mix = |key: u32, byte: u8| (key ^ u32::from(byte)).wrapping_mul(16_777_619);
    let comes_to = |low: u32| {
        let bytes = low.to_le_bytes().into_iter().take(3);
        (bytes.fold(2_166_136_261, mix) >> 8) as usize
    };
    let mut calls = vec![0u8; 1 << 24];
    for low in 0..1 << 24 {
        calls[comes_to(low)] += 1;
    }
    assert_eq!(calls.iter().max(), Some(&8));
    for group in GROUPS {
        assert_eq!(usize::from(calls[comes_to(group[0])]), group.len());
    }
}

/// Both calls come into one page, are found there, and go one after the other: what is said of one of them is never said of the other.
#[test]
fn a_pair_comes_and_goes() {
    let ends = GROUPS.map(|group| [group[0], group[group.len() - 1]]);
    let both_ways = ends.iter().flat_map(|&[a, b]| [[a, b], [b, a]]);
    for [first, second] in both_ways {
        let steps = [
            (insert(first, 10), (STORED, 10)),
            (search(second), (NONE, 0)),
            (delete(second), (ABSENT, 0)),
            (insert(second, 20), (STORED, 20)),
            (insert(first, 30), (ALREADY_THERE, 10)),
            (search(first), (FOUND, 10)),
            (delete_at(second, 10), (DIFFERS, 20)),
            (delete_at(first, 10), (DELETED, 10)),
            (search(first), (NONE, 0)),
            (search(second), (FOUND, 20)),
            (delete(second), (DELETED, 20)),
            (search(second), (NONE, 0)),
        ];
        let told = one_by_one(&one_page(&[]), &steps.map(|(operation, _)| operation));
        let answers = told.answers.iter().map(|answer| (answer.0, answer.3));
        let wanted = steps.map(|(_, answer)| answer);
        assert_eq!(answers.collect::<Vec<_>>(), wanted);
        assert_eq!(told.file, bytes(&one_page(&[])));
    }
}

/// "Records in every page stand by rising call number", whichever comes first; where one is deleted the other stays.
#[test]
fn one_of_a_pair_stays() {
    let [one, other] = PAIR;
    let full = one_page(&[(one, 10), (other, 20)]);
    let rising = [insert(one, 10), insert(other, 20)];
    let falling = [insert(other, 20), insert(one, 10)];
    for coming in [rising, falling] {
        assert_eq!(one_by_one(&one_page(&[]), &coming).file, bytes(&full));
    }
    for (gone, left) in [(one, (other, 20)), (other, (one, 10))] {
        let told = one_by_one(&full, &[delete(gone), search(left.0), search(gone)]);
        let (found, none) = (told.answers[1], told.answers[2]);
        assert_eq!((found.0, found.3, none.0), (FOUND, left.1, NONE));
        assert_eq!(told.file, bytes(&one_page(&[left])));
    }
}

/// Calls 1, 3 and 4 have keys that fall. A page stands by number all the same, calls of one key among the others.
#[test]
fn the_order_is_not_that_of_the_keys() {
    let keys = [1, 3, 4].map(pseudo_key);
    assert!(keys[0] > keys[1] && keys[1] > keys[2]);
    let [one, other] = PAIR;
    let between = one + 1;
    for coming in [
        [1, 3, 4, between, one, other],
        [other, between, 4, one, 3, 1],
    ] {
        let add = |page: Page, call: u32| page.add(records(&[call])[0]);
        let page = coming.into_iter().fold(Page::default(), add);
        assert_eq!(page.calls(), [1, 3, 4, one, between, other]);
    }
    let by_number = bytes(&one_page(&[(1, 20), (3, 10)])).unwrap();
    assert_eq!(check(&by_number), None);
    let by_key = bytes(&one_page(&[(3, 10), (1, 20)])).unwrap();
    assert_eq!(check(&by_key), Some((8, SECOND_RECORD)));
}

/// A record repeated, or a pair that falls, is met at the second record; two calls of one key that rise are not.
#[test]
fn a_pair_is_no_record_repeated() {
    let pairs = |group: &[u32]| {
        let firsts = group.iter().copied();
        let both = firsts.flat_map(|one| group.iter().map(move |other| (one, *other)));
        both.collect::<Vec<_>>()
    };
    for (one, other) in GROUPS.iter().flat_map(|group| pairs(group)) {
        let job = bytes(&one_page(&[(one, 10), (other, 10)])).unwrap();
        let wanted = (one >= other).then_some((8, SECOND_RECORD));
        assert_eq!(check(&job), wanted, "{one} and {other}");
    }
}

/// Two calls of one key belong in the same page: one of them under another pattern is met.
#[test]
fn a_pair_in_two_pages_is_refused() {
    let [one, other] = PAIR;
    assert_eq!(index(one, 1), 0);
    let apart = file(1, 2, &[(1, 0, &[(one, 10)]), (1, 1, &[(other, 20)])]);
    let job = Job::charge_file(&apart);
    let place = page_place(&Counts::read(&job), 2) + 4;
    assert_eq!(check(&job), Some((8, place as u32)));
}

/// An insert of another call of the key into a page that such calls fill: "no depth", at every depth and with any number of pages, and nothing changes.
/// No key has nine calls: to a page of eight a call comes that shares the first g bits or more, as it does to the others too.
#[test]
fn a_page_full_of_one_key_has_no_depth() {
    let mut tried = 0;
    for (capacity, global) in (1..=8).flat_map(|c| (0..=8).map(move |g| (c, g))) {
        for group in GROUPS.iter().filter(|group| group.len() >= capacity) {
            let near = [global, 8, 10].map(|shared| neighbour(group[0], shared));
            let coming = group[capacity..].iter().chain(&near);
            let coming: Vec<_> = coming.map(|call| insert(*call, 1)).collect();
            for local in [0, global / 2, global] {
                let least = local as usize + 1;
                for pages in [least, least + 1, 256] {
                    let full = around(&group[..capacity], capacity, global, local, pages);
                    let told = one_by_one(&full, &coming);
                    let no_depth = (NO_DEPTH, 0, 5, 0);
                    assert_eq!(told.answers, vec![no_depth; coming.len()]);
                    assert_eq!(told.log[0], (3, 0), "turn (d)");
                    assert_eq!(told.file, bytes(&full));
                    tried += coming.len();
                }
            }
        }
    }
    assert!(tried >= 10_000, "{tried}");
}

/// A call that shares fewer than g bits with the calls of one key that fill a page parts from all of them at once: with s bits shared, s + 1 - l new pages,
/// or "no page" where there are not so many. They stay together.
#[test]
fn a_split_keeps_them_together() {
    let in_turn = GROUPS
        .iter()
        .flat_map(|group| (0..8).map(move |s| (group, s)));
    for (group, shared) in in_turn {
        let call = neighbour(group[0], shared);
        for local in 0..=shared {
            // turns enough to change 128 entries
            let after = |pages| {
                let full = around(group, group.len(), 8, local, pages);
                told(&full, &[insert(call, 5)], &[(0, 300)])
            };
            let needed = shared as usize + 2;
            assert_eq!(after(needed - 1).codes_and_pages()[0].0, NO_PAGE);
            assert_eq!(after(needed).answers[0].0, STORED);
            let after = Job::from_bytes(&after(needed).file.unwrap()).file;
            assert_eq!(after.in_use, needed);
            let home = after.page(after.page_of(group[0]));
            assert_eq!((home.depth, &home.records), (shared + 1, &records(group)));
            let other = after.page(after.page_of(call));
            assert_eq!(other.records, [Record { call, charge: 5 }]);
        }
    }
}

/// The file tidied at a depth.
fn tidied(file: &ChargeFile, depth: u64) -> ChargeFile {
    match tidy(&Job::charge_file(file), depth, 17_952) {
        Outcome::Done { result } => Job::from_bytes(&result).file,
        refused => panic!("{refused:?}"),
    }
}

/// Their page and the empty ones beside it come down to one, and no wanted depth parts them: in a deeper directory too there is no depth for one more.
#[test]
fn tidying_keeps_them_together() {
    let in_turn = GROUPS
        .iter()
        .flat_map(|group| (0..=8).map(move |l| (group, l)));
    for (group, local) in in_turn {
        let (last, held) = group.split_last().unwrap();
        let came_in = around(held, held.len(), 8, local, 20);
        for depth in 0..=8 {
            let left = tidied(&came_in, depth);
            assert_eq!(left, around(held, held.len(), depth as u32, 0, 20));
            let one_more = one_by_one(&left, &[insert(*last, 1)]);
            assert_eq!(one_more.answers[0].0, NO_DEPTH);
        }
    }
}

/// With a record in the other half: joined if there is room, in the order of the numbers; else kept apart.
#[test]
fn tidying_with_a_call_beside_them() {
    let in_turn = GROUPS
        .iter()
        .flat_map(|group| (1..=8).map(move |l| (group, l)));
    for (group, local) in in_turn.filter(|(group, _)| group.len() < 8) {
        let beside = neighbour(group[0], local - 1);
        let with_room = |capacity| {
            let mut file = around(group, capacity, 8, local, 20);
            // of the halves that are left the last one is the other of page 1
            let number = file.in_use;
            file.page_mut(number).records = records(&[beside]);
            tidied(&file, 8)
        };
        let all = [group, &[beside][..]].concat();
        let joined = with_room(group.len() + 1);
        assert_eq!(joined, around(&all, group.len() + 1, 8, 0, 20));
        let apart = with_room(group.len());
        let home = apart.page(apart.page_of(group[0]));
        assert_eq!((home.depth, &home.records), (local, &records(group)));
        assert_eq!(apart.page(apart.page_of(beside)).calls(), [beside]);
    }
}
