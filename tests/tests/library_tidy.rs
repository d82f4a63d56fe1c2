//! The library's tidying against the tests' own implementation: output for output, and every byte that must keep its value.

mod linked;
mod tidied;

use chargefile_tests::check::least_lent;
use chargefile_tests::damage::{fault, scribble, NUMBERS};
use chargefile_tests::explain::explain_from;
use chargefile_tests::job::Job;
use chargefile_tests::make;
use chargefile_tests::make_months::{between_months, month, month_of_deletes};
use chargefile_tests::make_thin;
use chargefile_tests::plain_list::PlainList;
use chargefile_tests::random::Random;
use chargefile_tests::result;
use chargefile_tests::seeds::{each_seed, few_seeds};
use chargefile_tests::tally::{all_seen, Tally};
use chargefile_tests::vectors;
use chargefile_tests::{tidy, Outcome};
use linked::Lent;
use tidied::{depths, Met};

/// Files, each of which is tidied at every depth.
const FILES: u64 = 2_500;
const DAMAGED: u64 = 2_000;
const CHAINS: u64 = 600;

/// The longest that a tidied file can be.
const LONGEST: usize = 17_952;

/// An address that is as good as any.
const ROUND: (usize, usize) = (0, 0);

/// Both come to the same.
fn agree(file: &[u8], depth: u64, room: usize) -> Outcome {
    let wanted = tidy(file, depth, room);
    linked::tidies_to(file, depth, room, ROUND, &wanted);
    wanted
}

/// It comes to what is stored; more lent than stored changes nothing but a refusal for too little. The last name printed is that of a vector that fails.
#[test]
fn every_vector() {
    for vector in vectors::to_be_tidied() {
        println!("{}", vector.name);
        let (file, depth) = (&vector.file, vector.depth);
        linked::tidies_to(file, depth, vector.room, ROUND, &vector.wanted);
        if !matches!(vector.wanted, Outcome::Refused { number: 11, .. }) {
            linked::tidies_to(file, depth, vector.room + 100, ROUND, &vector.wanted);
        }
    }
}

/// An output that is just long enough, one byte short, of no bytes, and one that is longer.
fn with_rooms(random: &mut Random, file: &[u8], depth: u64, tidied: &Outcome) {
    let Outcome::Done { result } = tidied else {
        // nothing but the file and the depth counts
        let room = random.one_of(&[0, 1, 100, LONGEST]);
        return linked::tidies_to(file, depth, room, ROUND, tidied);
    };
    let (number, place) = (11, 0);
    let short = Outcome::Refused { number, place };
    let some = random.below(result.len());
    let more = random.one_of(&[1, 7, 4_096, LONGEST]);
    for room in [0, some, result.len() - 1] {
        linked::tidies_to(file, depth, room, ROUND, &short);
    }
    for room in [result.len(), result.len() + more] {
        linked::tidies_to(file, depth, room, ROUND, tidied);
    }
}

#[test]
fn random_files_at_every_depth() {
    let mut met = Met::default();
    let whole = each_seed(FILES, |seed| {
        let random = &mut Random::new(seed, "library tidy");
        let file = between_months(random);
        let bytes = Job::charge_file(&file);
        for depth in depths(file.depth) {
            let outcome = tidy(&bytes, depth, LONGEST);
            with_rooms(random, &bytes, depth, &outcome);
            met.add(&file, &outcome);
        }
    });
    if whole {
        met.has_everything(300);
    }
}

/// Any number for a depth, most of them with a low byte that could be taken.
#[test]
fn no_bit_of_the_depth_is_cut() {
    let (mut taken, mut refused) = (0, 0);
    let whole = few_seeds(500, |seed| {
        let random = &mut Random::new(seed, "library high depth");
        let bytes = Job::charge_file(&make_thin::file(random));
        for bit in 0..64 {
            let low = random.below(9) as u64;
            for depth in [low | 1 << bit, low | random.bits() << bit] {
                match agree(&bytes, depth, LONGEST) {
                    Outcome::Done { .. } => taken += 1,
                    Outcome::Refused { .. } => refused += 1,
                }
            }
        }
    });
    if whole {
        all_seen([("taken", taken, 500), ("refused", refused, 50_000)]);
    }
}

/// The file's own refusals come before all others, and 18 before 19 and 11: files and jobs with a fault, jobs without one, at any depth and with any room.
#[test]
fn damaged_files_and_jobs() {
    let mut tally = Tally::default();
    let whole = each_seed(DAMAGED, |seed| {
        let random = &mut Random::new(seed, "library tidy damage");
        let mut job = make::small_job(random);
        if random.percent(40) {
            (job.operations, job.turns) = (Vec::new(), Vec::new());
        }
        let bytes = job.to_bytes();
        for number in NUMBERS {
            let damaged = match fault(random, &job, number) {
                Some(fault) if random.percent(60) => fault.apply(&bytes),
                _ if random.percent(80) => scribble(random, &bytes),
                _ => bytes.clone(),
            };
            let depth = random.one_of(&depths(job.file.depth));
            let room = random.one_of(&[0, 60, LONGEST, LONGEST]);
            match agree(&damaged, depth, room) {
                Outcome::Refused { number, .. } => tally.count(number),
                Outcome::Done { .. } => tally.count(0),
            }
        }
    });
    if whole {
        tally.all_met(NUMBERS.into_iter().chain([18, 19, 11, 0]), 100);
    }
}

/// A job is refused 18, at the operation count, however many operations it has, with turns or without. With none, the turns that it has name none.
#[test]
fn a_job_with_operations_is_refused() {
    let (mut with_turns, mut without) = (0, 0);
    let whole = few_seeds(2_000, |seed| {
        let random = &mut Random::new(seed, "library tidy job");
        let mut job = make::mostly_small_job(random, seed);
        if random.percent(30) {
            job.turns.clear();
        }
        if job.operations.is_empty() {
            return;
        }
        let (number, place) = (18, 8);
        for depth in [0, 8, 9] {
            let outcome = agree(&job.to_bytes(), depth, random.below(LONGEST));
            assert_eq!(outcome, Outcome::Refused { number, place });
        }
        with_turns += usize::from(!job.turns.is_empty());
        without += usize::from(job.turns.is_empty());
    });
    if whole {
        all_seen([("with turns", with_turns, 500), ("without", without, 300)]);
    }
}

/// Every length of the output for a few small files.
#[test]
fn every_room() {
    few_seeds(30, |seed| {
        let random = &mut Random::new(seed, "library tidy room");
        let files = std::iter::repeat_with(|| Job::charge_file(&make_thin::file(random)));
        let file = files.into_iter().find(|file| file.len() <= 300);
        let file = file.expect("a small file comes along");
        for depth in [0, 3, 6] {
            for room in 0..500 {
                agree(&file, depth, room);
            }
        }
    });
}

/// Every length of a file but its own is refused.
#[test]
fn every_length() {
    few_seeds(30, |seed| {
        let random = &mut Random::new(seed, "library tidy length");
        let file = Job::charge_file(&make_thin::file(random));
        let longer = [&file[..], &[0; 40]].concat();
        for length in (0..file.len().min(600)).chain(file.len() + 1..longer.len()) {
            let refused = match length {
                0..32 => (1, length as u32),
                _ => (4, 28),
            };
            let (number, place) = refused;
            let outcome = agree(&longer[..length], 8, LONGEST);
            assert_eq!(outcome, Outcome::Refused { number, place });
        }
    });
}

/// The file and the output may begin at any address.
#[test]
fn every_address() {
    few_seeds(40, |seed| {
        let random = &mut Random::new(seed, "library tidy address");
        let file = between_months(random);
        let bytes = Job::charge_file(&file);
        for behind in (0..16).flat_map(|file| (0..16).map(move |out| (file, out))) {
            let depth = random.between(0, 9) as u64;
            let wanted = tidy(&bytes, depth, LONGEST);
            let room = match &wanted {
                Outcome::Done { result } => result.len() + random.below(3),
                Outcome::Refused { .. } => LONGEST,
            };
            linked::tidies_to(&bytes, depth, room, behind, &wanted);
        }
    });
}

/// What the library says of its own tidied file: its check accepts it, and tidying it again at that depth changes nothing.
#[test]
fn a_tidied_file_is_a_tidy_file() {
    let mut files = 0;
    let whole = few_seeds(FILES, |seed| {
        let random = &mut Random::new(seed, "library tidy again");
        let bytes = Job::charge_file(&between_months(random));
        let depth = random.between(4, 8) as u64;
        let mut out = vec![0xA5; LONGEST];
        if let Ok(tidied) = linked::tidy(&bytes, depth, &mut out) {
            assert_eq!(linked::check(&tidied), None);
            let mut again = vec![0x5A; LONGEST];
            assert_eq!(linked::tidy(&tidied, depth, &mut again), Ok(tidied));
            files += 1;
        }
    });
    if whole {
        assert!(files >= 1_000, "tidied files: {files}");
    }
}

/// Runs a month by the library and takes the plain list on by its log; gives back the list and the charge file.
fn one_month(list: PlainList, job: &Job) -> (PlainList, Vec<u8>) {
    let bytes = job.to_bytes();
    let (room, rows, memory) = least_lent(&bytes);
    let told = linked::run(&bytes, &mut Lent::new(room, rows, memory));
    let contents = result::from_bytes(&told.expect("a sound job is run")).unwrap();
    let list = explain_from(list, job, &contents).unwrap();
    let left = contents.charge_file.expect("every operation finishes");
    assert!(Job::from_bytes(&left).file.in_use >= job.file.in_use);
    (list, left)
}

/// The file tidied by the library at one of the depths that it takes, any of them.
fn tidied_by_the_library(random: &mut Random, file: &[u8]) -> Vec<u8> {
    let mut depths: Vec<u64> = (0..=8).collect();
    random.shuffle(&mut depths);
    let at = |depth| linked::tidy(file, depth, &mut vec![0xA5; LONGEST]).ok();
    depths.into_iter().find_map(at).expect("8 is taken")
}

/// Months one after another, run and tidied by the library alone: all logs explain all answers on one plain list, which starts as the first file's calls.
#[test]
fn the_logs_of_all_months_explain_all_answers() {
    let (mut months, mut fewer_pages) = (0, 0);
    let whole = each_seed(CHAINS, |seed| {
        let random = &mut Random::new(seed, "library months");
        let mut file = between_months(random);
        let calls = make::pool(random, file.depth);
        let mut list = PlainList::of(&file.holds()).unwrap();
        for _ in 0..random.between(2, 6) {
            let job = if random.percent(35) {
                month_of_deletes(random, file)
            } else {
                month(random, file, &calls)
            };
            let mut bytes;
            (list, bytes) = one_month(list, &job);
            let before = Job::from_bytes(&bytes).file.in_use;
            if random.percent(70) {
                bytes = tidied_by_the_library(random, &bytes);
            }
            assert_eq!(linked::check(&bytes), None);
            file = Job::from_bytes(&bytes).file;
            assert_eq!(PlainList::of(&file.holds()).as_ref(), Ok(&list));
            months += 1;
            fewer_pages += usize::from(file.in_use < before);
        }
    });
    if whole {
        all_seen([("months", months, 1_500), ("fewer pages", fewer_pages, 300)]);
    }
}
