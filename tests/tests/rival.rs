//! The tuned rival (tests/rival) against the tests' own implementation: a ratio to it says something only as long as it does the whole work.
//! Refusals, result bytes and every lent buffer afterwards: every vector, random jobs and damaged ones; by hand, the deepest splits, and two calls that
//! no split parts.

use chargefile_tests::answer::CODES;
use chargefile_tests::check::{least_lent, WORKING_MEMORY};
use chargefile_tests::damage::{fault, scribble, NUMBERS};
use chargefile_tests::file::ChargeFile;
use chargefile_tests::job::{Job, Kind, Operation, JOB_VERSION};
use chargefile_tests::key::{call_with, pseudo_key};
use chargefile_tests::little_endian::two_at;
use chargefile_tests::make;
use chargefile_tests::page::Record;
use chargefile_tests::random::Random;
use chargefile_tests::result::answer_bytes;
use chargefile_tests::seeds::{each_seed, few_seeds};
use chargefile_tests::tally::Tally;
use chargefile_tests::vectors;
use chargefile_tests::{check, run, Outcome};
use rival::Row;

const JOBS: u64 = 20_000;
const DAMAGED: u64 = 2_000;

/// A row that no run leaves behind.
const OTHER_ROW: Row = Row {
    charge: 0x5A5A_5A5A,
    moment: 0x5A5A,
    used: 0x5A5A,
    code: 0x5A,
    told: 0x5A,
    page: 0x5A,
    home: 0x5A,
    base: 0x5A,
    count: 0x5A,
    next: 0x5A,
    along: 0x5A,
};

/// What a run is lent, filled with a pattern beforehand.
#[derive(Clone, PartialEq)]
struct Lent {
    result: Vec<u8>,
    rows: Vec<Row>,
    memory: Vec<u8>,
}

impl Lent {
    fn new((result, rows, memory): (usize, usize, usize)) -> Lent {
        Lent {
            result: vec![0xA5; result],
            rows: vec![OTHER_ROW; rows],
            memory: vec![0xC3; memory],
        }
    }

    /// After a run with a result of so many bytes.
    fn is_left_clean(&self, length: usize) -> bool {
        self.result[length..].iter().all(|byte| *byte == 0xA5)
            && self.rows.iter().all(|row| *row == Row::default())
            && self.memory.iter().all(|byte| *byte == 0)
    }
}

/// Both come to the same, in the check and in the run, and what is lent is left as the document says.
fn agree(job: &[u8], lent: (usize, usize, usize)) -> Outcome {
    let refused = |(number, place): (u32, u32)| (number, place as usize);
    assert_eq!(rival::check(job).err(), check(job).map(refused));
    let before = Lent::new(lent);
    let mut after = before.clone();
    let told = rival::run(job, &mut after.result, &mut after.rows, &mut after.memory);
    let wanted = run(job, lent.0, lent.1, lent.2);
    match &wanted {
        Outcome::Refused { number, place } => {
            assert_eq!(told, Err((*number, *place as usize)));
            assert!(after == before, "a refused job has written");
        }
        Outcome::Done { result } => {
            assert_eq!(told, Ok(result.len()));
            assert_eq!(after.result[..result.len()], result[..]);
            assert!(after.is_left_clean(result.len()), "what a run leaves");
        }
    }
    wanted
}

/// Enough for every job.
const ENOUGH: (usize, usize, usize) = (21_048, 256, WORKING_MEMORY);

#[test]
fn every_vector() {
    let mut refused = 0;
    let vectors = vectors::all();
    for vector in &vectors {
        let outcome = agree(&vector.job, vector.room);
        assert_eq!(outcome, vector.wanted, "{}", vector.name);
        refused += usize::from(matches!(outcome, Outcome::Refused { .. }));
    }
    assert!(
        refused >= 40 && refused <= vectors.len() - 40,
        "{refused} refused"
    );
}

#[test]
fn random_jobs() {
    let (mut jobs, mut codes) = (0, [0usize; CODES.len()]);
    let whole = each_seed(JOBS, |seed| {
        let random = &mut Random::new(seed, "rival");
        let job = make::mostly_small_job(random, seed);
        let bytes = job.to_bytes();
        let (result, rows, memory) = least_lent(&bytes);
        let more = random.below(3) * random.below(300);
        let Outcome::Done { result } = agree(&bytes, (result + more, rows + more, memory + more))
        else {
            panic!("a job that meets no row is run");
        };
        for answer in answer_bytes(&result, job.operations.len()) {
            codes[usize::from(answer[0])] += 1;
        }
        jobs += 1;
    });
    if whole {
        println!("answers by code: {codes:?}");
        assert!(jobs >= JOBS, "only {jobs} jobs");
        assert!(codes.iter().all(|count| *count > 100), "{codes:?}");
    }
}

#[test]
fn damaged_jobs() {
    let (mut jobs, mut tally) = (0, Tally::default());
    let whole = each_seed(DAMAGED, |seed| {
        let random = &mut Random::new(seed, "rival damage");
        let job = make::small_job(random);
        let bytes = job.to_bytes();
        for number in NUMBERS {
            let faulty = fault(random, &job, number).map(|fault| fault.apply(&bytes));
            for damaged in faulty.into_iter().chain([scribble(random, &bytes)]) {
                let outcome = agree(&damaged, ENOUGH);
                if let Outcome::Refused { number, .. } = outcome {
                    tally.count(number);
                }
                jobs += 1;
            }
        }
    });
    if whole {
        assert!(jobs >= 15 * DAMAGED, "only {jobs} jobs");
        tally.all_met(NUMBERS, 50);
    }
}

#[test]
fn every_length_of_one_job() {
    let bytes = make::small_job(&mut Random::new(1, "lengths")).to_bytes();
    for length in 0..bytes.len() {
        assert!(matches!(
            agree(&bytes[..length], ENOUGH),
            Outcome::Refused { .. }
        ));
    }
}

/// A job of one empty page that keeps to no limit by itself, but all of whose offsets are as computed.
fn sized(depth: u32, capacity: usize, pages: usize, operations: usize, turns: usize) -> Vec<u8> {
    let search = Operation {
        kind: Kind::Search,
        call: 1,
        charge: 0,
    };
    let job = Job {
        file: ChargeFile {
            in_use: 1.min(pages),
            ..ChargeFile::empty(depth, capacity, pages)
        },
        operations: vec![search; operations],
        turns: vec![0; turns],
    };
    job.to_bytes()
}

/// The quick check sees each limit by itself: no offset is wrong beside it.
#[test]
fn at_each_limit_and_beyond() {
    let refused = |place| Outcome::Refused { number: 3, place };
    assert_eq!(agree(&sized(9, 8, 1, 1, 1), ENOUGH), refused(2));
    assert_eq!(agree(&sized(8, 9, 1, 1, 1), ENOUGH), refused(3));
    assert_eq!(agree(&sized(8, 0, 1, 1, 1), ENOUGH), refused(3));
    assert_eq!(agree(&sized(8, 8, 257, 1, 1), ENOUGH), refused(4));
    assert_eq!(agree(&sized(8, 8, 0, 1, 1), ENOUGH), refused(4));
    assert_eq!(agree(&sized(8, 8, 1, 257, 1), ENOUGH), refused(8));
    assert_eq!(agree(&sized(8, 8, 1, 1, 16_385), ENOUGH), refused(10));
    for job in [sized(0, 1, 1, 0, 0), sized(8, 8, 256, 256, 16_384)] {
        assert!(matches!(agree(&job, ENOUGH), Outcome::Done { .. }));
    }
}

#[test]
fn too_little_lent() {
    let mut jobs = 0;
    few_seeds(500, |seed| {
        let bytes = make::small_job(&mut Random::new(seed, "rival output")).to_bytes();
        let (result, rows, memory) = least_lent(&bytes);
        let refused = |place| Outcome::Refused { number: 11, place };
        assert_eq!(agree(&bytes, (result - 1, 0, 0)), refused(0));
        assert_eq!(agree(&bytes, (result, rows, memory - 1)), refused(2));
        if rows > 0 {
            assert_eq!(agree(&bytes, (result, rows - 1, 0)), refused(1));
            jobs += 1;
        }
    });
    assert!(jobs > 0, "no job with an operation");
}

/// An insert splits the one page; all other operations search for call 3, which moves: its pseudo key has the bit 1 for its first, as call 5's has, and
/// call 0's the bit 0. They begin before, and read the old page after their entry was
/// changed: all have that turn for their moment, and the last to read comes first in the log. No more lines can be out of order.
#[test]
fn a_log_that_comes_backwards() {
    let mut file = ChargeFile::empty(1, 2, 2);
    for call in [0, 3] {
        file.page_mut(1).records.push(Record { call, charge: 7 });
    }
    let search = Operation {
        kind: Kind::Search,
        call: 3,
        charge: 0,
    };
    let mut operations = vec![search; 256];
    operations[0] = Operation {
        kind: Kind::Insert,
        call: 5,
        charge: 9,
    };
    let mut turns: Vec<usize> = (1..256).collect();
    turns.extend([0; 6]);
    turns.extend((1..256).rev());
    let job = Job {
        file,
        operations,
        turns,
    };
    let Outcome::Done { result } = agree(&job.to_bytes(), ENOUGH) else {
        panic!("a job that meets no row is run");
    };
    let changed = 255 + 5u16;
    let log = &result[24 + 8 * 256..][..4 * 256];
    for (i, line) in log.chunks(4).enumerate() {
        assert_eq!(line[..2], changed.to_le_bytes());
        assert_eq!(line[2..], (i as u16).to_le_bytes());
    }
}

/// A file of depth 8 with one page, which is full of these calls, and 255 more.
fn one_full_page(calls: &[u32]) -> ChargeFile {
    let mut file = ChargeFile::empty(8, calls.len(), 256);
    for &call in calls {
        let charge = call / 3;
        *file.page_mut(1) = file.page(1).add(Record { call, charge });
    }
    file
}

/// The operations one after another, each with so many turns: their codes, and the turns that each has used.
fn one_by_one(file: ChargeFile, told: &[(Kind, u32)], each: usize) -> Vec<(u8, usize)> {
    let operation = |(kind, call): &(Kind, u32)| Operation {
        kind: *kind,
        call: *call,
        charge: if *kind == Kind::Insert { 9 } else { 0 },
    };
    let job = Job {
        file,
        operations: told.iter().map(operation).collect(),
        turns: (0..told.len() * each).map(|t| t / each).collect(),
    };
    let Outcome::Done { result } = agree(&job.to_bytes(), ENOUGH) else {
        panic!("a job that meets no row is run");
    };
    let answers = answer_bytes(&result, told.len());
    let code_and_used = |answer: &[u8]| (answer[0], two_at(answer, 2));
    answers.map(code_and_used).collect()
}

/// As deep as can be, along every pattern of 8 bits: all records but one have the call's own, and that one's differs in the last bit, so there are 8 new
/// pages. The call leaves the old page at its first bit 1: the sooner, the more entries the page keeps, and it keeps one where all bits are 0.
#[test]
fn the_deepest_splits() {
    for pattern in 0..256u32 {
        let kept = (pattern | 1).leading_zeros() - 24;
        let changed = 256 - (128 >> kept);
        for capacity in 1..=8 {
            let calls: Vec<u32> = (0..capacity)
                .map(|r| call_with(pattern ^ u32::from(r == 0), 8, r << 8))
                .collect();
            let own = call_with(pattern, 8, 9 << 8);
            let told = [(Kind::Insert, own), (Kind::Search, own)];
            let stored = (3, 7 + 8 + changed);
            let wanted = vec![stored, (1, 2)];
            assert_eq!(one_by_one(one_full_page(&calls), &told, 280), wanted);
        }
    }
}

/// Two calls with one pseudo key: no depth parts them, but in a page that has room they stand beside each other, and go along with each other.
#[test]
fn two_calls_of_one_key() {
    let (one, other) = (474_790_318, 141_231_736);
    assert_eq!(pseudo_key(one), pseudo_key(other));
    let told = [
        (Kind::Insert, other),
        (Kind::Search, other),
        (Kind::Search, one),
        (Kind::Delete, one),
        (Kind::Insert, other),
        (Kind::Insert, one),
        (Kind::Search, other),
    ];
    let codes = [7, 2, 1, 5, 3, 7, 1];
    let come_to = one_by_one(one_full_page(&[one]), &told, 6);
    assert!(come_to.iter().map(|(code, _)| *code).eq(codes));
    // 01000111 begins their key: page 1 keeps a quarter of the entries
    let near = call_with(0b0100_0110, 8, 0);
    let told = [(Kind::Insert, near), (Kind::Search, one)];
    let wanted = vec![(3, 7 + 8 + 192), (1, 2)];
    let come_to = one_by_one(one_full_page(&[one, other]), &told, 280);
    assert_eq!(come_to, wanted);
}

/// Each is refused, and no other row is tried.
#[test]
fn every_other_version() {
    let mut job = sized(8, 8, 1, 1, 1);
    let refused = Outcome::Refused {
        number: 2,
        place: 0,
    };
    for version in (0..=u16::MAX).filter(|version| usize::from(*version) != JOB_VERSION) {
        job[..2].copy_from_slice(&version.to_le_bytes());
        assert_eq!(agree(&job, ENOUGH), refused);
    }
}
