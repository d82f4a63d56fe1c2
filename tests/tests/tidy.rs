//! Tidying by the tests' own implementation: what must hold of every tidied file ("Tidying between runs").

mod tidied;

use chargefile_tests::check::page_place;
use chargefile_tests::file::ChargeFile;
use chargefile_tests::job::{Counts, Job};
use chargefile_tests::key;
use chargefile_tests::make_months::between_months;
use chargefile_tests::page::{page_length, Page, Record};
use chargefile_tests::plain_list::PlainList;
use chargefile_tests::random::Random;
use chargefile_tests::seeds::each_seed;
use chargefile_tests::tidy::{join, join_all, pairs, tidy_choosing};
use chargefile_tests::{check, tidy, Outcome};
use tidied::{depths, Met};

const FILES: u64 = 1_500;

/// The longest that a tidied file can be.
const LONGEST: usize = 17_952;

/// A file with its bytes, and what tidying it at every depth comes to.
struct Case {
    file: ChargeFile,
    bytes: Vec<u8>,
    outcomes: Vec<(u64, Outcome)>,
}

impl Case {
    fn new(file: ChargeFile) -> Case {
        let bytes = Job::charge_file(&file);
        assert_eq!(check(&bytes), None, "{file:?}");
        let outcome = |depth| (depth, tidy(&bytes, depth, LONGEST));
        Case {
            outcomes: depths(file.depth).into_iter().map(outcome).collect(),
            file,
            bytes,
        }
    }

    /// The tidied files, each with its depth.
    fn done(&self) -> impl Iterator<Item = (u64, &[u8])> {
        self.outcomes.iter().filter_map(|(depth, outcome)| {
            let Outcome::Done { result } = outcome else {
                return None;
            };
            Some((*depth, &result[..]))
        })
    }
}

/// Many files, each with what tidying it at every depth comes to.
fn each_case(usage: &str, mut test: impl FnMut(&mut Random, &Case)) -> bool {
    each_seed(FILES, |seed| {
        let random = &mut Random::new(seed, usage);
        let case = Case::new(between_months(random));
        test(random, &case);
    })
}

fn in_use(file: &ChargeFile) -> Vec<Page> {
    file.pages[..file.in_use].to_vec()
}

/// The file of a tidied file's bytes.
fn file_of(bytes: &[u8]) -> ChargeFile {
    Job::from_bytes(bytes).file
}

/// "P is kept", c too; it is a sound charge file; "the file holds the same calls with the same charges".
#[test]
fn a_tidied_file_is_a_file_with_the_same_calls() {
    let mut met = Met::default();
    let whole = each_case("tidy", |_, case| {
        let list = PlainList::of(&case.file.holds());
        for (depth, bytes) in case.done() {
            assert_eq!(check(bytes), None);
            let counts = Counts::read(bytes);
            assert_eq!(counts.depth as u64, depth);
            assert_eq!(counts.capacity, case.file.capacity);
            assert_eq!(counts.pages, case.file.pages.len());
            assert_eq!((counts.operations, counts.turns), (0, 0));
            assert_eq!(PlainList::of(&file_of(bytes).holds()), list);
            let page = 4 + 8 * counts.capacity;
            assert_eq!(bytes.len(), 32 + (2 << depth) + counts.pages * page);
        }
        for (_, outcome) in &case.outcomes {
            met.add(&case.file, outcome);
        }
    });
    if whole {
        met.has_everything(150);
    }
}

/// 19 is for a wanted depth "above 8 or below the depth of a page left after joining": each depth from that of the deepest page left to 8 is taken, and no other.
#[test]
fn the_depths_that_are_taken() {
    each_case("tidy depths", |_, case| {
        let left = join_all(in_use(&case.file), case.file.capacity, |pairs| pairs[0]);
        let deepest = left.iter().map(|page| u64::from(page.depth)).max();
        for (depth, outcome) in &case.outcomes {
            let (number, place) = (19, 0);
            let taken = deepest <= Some(*depth) && *depth <= 8;
            let refused = *outcome == Outcome::Refused { number, place };
            assert_eq!(refused, !taken, "depth {depth}: {outcome:?}");
        }
    });
}

/// Whichever pair is joined first, the bytes are the same.
#[test]
fn the_order_of_joins_does_not_matter() {
    let mut choices = 0;
    let whole = each_case("tidy orders", |random, case| {
        let (depth, wanted) = random.one_of(&case.done().collect::<Vec<_>>());
        let result = wanted.to_vec();
        let wanted = Outcome::Done { result };
        let room = LONGEST;
        let last = tidy_choosing(&case.bytes, depth, room, |pairs| pairs[pairs.len() - 1]);
        assert_eq!(last, wanted);
        for _ in 0..3 {
            let outcome = tidy_choosing(&case.bytes, depth, room, |pairs| {
                choices += usize::from(pairs.len() > 1);
                random.one_of(pairs)
            });
            assert_eq!(outcome, wanted);
        }
    });
    if whole {
        assert!(choices >= 10_000, "choices among several pairs: {choices}");
    }
}

/// "Until no such pair is left". Looked for in another way than by the function that finds the pairs: two pages are a pair if one of them is the other's
/// pattern with the last bit changed.
#[test]
fn no_pair_is_left() {
    each_case("tidy pairs", |_, case| {
        for (_, bytes) in case.done() {
            let left = file_of(bytes);
            assert_eq!(pairs(&in_use(&left), left.capacity), []);
            for page in in_use(&left) {
                let other_half = |other: &&Page| {
                    (other.depth, other.pattern) == (page.depth, page.pattern ^ 1) && page.depth > 0
                };
                if let Some(other) = in_use(&left).iter().find(other_half) {
                    let together = page.records.len() + other.records.len();
                    assert!(together > left.capacity, "{page:?} and {other:?}");
                }
            }
        }
    });
}

/// The pages left are the highest patterns under which at most c records lie, or the page itself: nothing is joined there, but counted.
#[test]
fn the_pages_left_are_the_highest_with_room() {
    each_case("tidy highest", |_, case| {
        let mut wanted: Vec<(u32, u32)> = Vec::new();
        for page in in_use(&case.file) {
            let home = highest(&case.file, &page);
            if !wanted.contains(&home) {
                wanted.push(home);
            }
        }
        // by the first of 256 entries
        wanted.sort_by_key(|(depth, pattern)| pattern << (8 - depth));
        for (_, bytes) in case.done() {
            let left = in_use(&file_of(bytes));
            let left: Vec<(u32, u32)> = left.iter().map(|p| (p.depth, p.pattern)).collect();
            assert_eq!(left, wanted);
        }
    });
}

/// Depth and pattern of the highest page that this one can become part of.
fn highest(file: &ChargeFile, page: &Page) -> (u32, u32) {
    let held = file.holds();
    let at = |depth: u32| (depth, page.pattern >> (page.depth - depth));
    let has_room = |&(depth, pattern): &(u32, u32)| {
        let under = |r: &&Record| key::index(r.call, depth) == pattern as usize;
        held.iter().filter(under).count() <= file.capacity
    };
    let itself = (page.depth, page.pattern);
    (0..page.depth).map(at).find(has_room).unwrap_or(itself)
}

/// Tidying again at the same depth changes nothing.
#[test]
fn a_tidied_file_is_tidy() {
    each_case("tidy again", |_, case| {
        for (depth, bytes) in case.done() {
            let result = bytes.to_vec();
            let again = tidy(bytes, depth, bytes.len());
            assert_eq!(again, Outcome::Done { result });
        }
    });
}

/// Tidying the tidied file at another depth is tidying the first file at that depth, refusals too.
#[test]
fn only_the_last_depth_counts() {
    each_case("tidy twice", |random, case| {
        let (_, bytes) = random.one_of(&case.done().collect::<Vec<_>>());
        for (depth, outcome) in &case.outcomes {
            assert_eq!(tidy(bytes, *depth, LONGEST), *outcome);
        }
    });
}

/// "The pages are then numbered by their first entry": reading the directory from the front, each new number is the next. Pages no longer in use are zero
/// to the byte.
#[test]
fn pages_are_numbered_by_their_first_entry() {
    each_case("tidy numbers", |_, case| {
        for (_, bytes) in case.done() {
            let left = file_of(bytes);
            let mut highest = 0;
            for &number in &left.directory {
                assert!(number <= highest + 1, "{:?}", left.directory);
                highest = highest.max(number);
            }
            assert_eq!(highest, left.in_use);
            let counts = Counts::read(bytes);
            let end = page_place(&counts, counts.in_use) + page_length(counts.capacity);
            assert!(bytes[end..].iter().all(|byte| *byte == 0));
        }
    });
}

/// A join undoes a split, and a split undoes a join.
#[test]
fn a_join_undoes_a_split() {
    each_seed(FILES, |seed| {
        let random = &mut Random::new(seed, "tidy halves");
        for page in in_use(&between_months(random)) {
            let (zero, one) = page.halve();
            assert_eq!(join(&zero, &one), page);
            assert_eq!(join(&zero, &one).halve(), (zero, one));
        }
    });
}
