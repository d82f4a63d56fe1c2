//! The library's run against the tests' own implementation: result bytes for result bytes, and every lent buffer afterwards.

mod linked;

use chargefile_tests::answer::CODES;
use chargefile_tests::check::least_lent;
use chargefile_tests::damage::{fault, scribble, NUMBERS};
use chargefile_tests::explain::explain;
use chargefile_tests::job::Job;
use chargefile_tests::little_endian::four_at;
use chargefile_tests::make;
use chargefile_tests::plain_list::PlainList;
use chargefile_tests::random::Random;
use chargefile_tests::result::{self, answer_bytes};
use chargefile_tests::seeds::{each_seed, few_seeds};
use chargefile_tests::tally::Tally;
use chargefile_tests::vectors;
use chargefile_tests::{run, Outcome};
use linked::Lent;

const JOBS: u64 = 200_000;
const DAMAGED: u64 = 20_000;

/// Both come to the same, and what is lent is left as the document says.
fn agree(job: &[u8], result: usize, rows: usize, memory: usize) -> Outcome {
    let wanted = run(job, result, rows, memory);
    linked::comes_to(job, (result, rows, memory), &wanted);
    wanted
}

/// It comes to what is stored; more lent than stored changes nothing but a refusal for too little. The last name printed is that of a vector that
/// fails.
#[test]
fn every_vector() {
    for vector in vectors::all() {
        println!("{}", vector.name);
        let (result, rows, memory) = vector.room;
        linked::comes_to(&vector.job, vector.room, &vector.wanted);
        if !matches!(vector.wanted, Outcome::Refused { number: 11, .. }) {
            let more = (result + 100, rows + 3, memory + 50);
            linked::comes_to(&vector.job, more, &vector.wanted);
        }
    }
}

#[test]
fn random_jobs() {
    let (mut files, mut codes) = (0, [0usize; CODES.len()]);
    let whole = each_seed(JOBS, |seed| {
        let random = &mut Random::new(seed, "library run");
        let job = make::mostly_small_job(random, seed);
        let bytes = job.to_bytes();
        let (result, rows, memory) = least_lent(&bytes);
        let more = random.below(3) * random.below(300);
        let outcome = agree(
            &bytes,
            result + more,
            rows + random.below(3) * more,
            memory + more,
        );
        let Outcome::Done { result } = outcome else {
            panic!("a job that meets no row is run");
        };
        files += usize::from(result[16..20] != [0; 4]);
        for answer in answer_bytes(&result, job.operations.len()) {
            codes[usize::from(answer[0])] += 1;
        }
    });
    if whole {
        println!("answers by code: {codes:?}");
        assert!(codes.iter().all(|count| *count > 1_000), "{codes:?}");
        assert!(files > 50_000, "results with a charge file: {files}");
    }
}

/// What is read from the buffer, up to the total in its header: its log explains every answer, and its charge file is a job by itself that holds
/// what the plain list holds.
#[test]
fn the_buffer_explains_the_job() {
    let mut files = 0;
    let whole = few_seeds(20_000, |seed| {
        let random = &mut Random::new(seed, "library explained");
        let job = make::small_job(random);
        let bytes = job.to_bytes();
        let (room, rows, memory) = least_lent(&bytes);
        let mut lent = Lent::new(room + random.below(300), rows, memory);
        let told = linked::run_only(&bytes, &mut lent);
        let total = u64::from(four_at(&lent.result, 20));
        assert_eq!((told.refusal, told.length), (0, total));
        let read = result::from_bytes(&lent.result[..total as usize]).unwrap();
        let list = explain(&job, &read).unwrap();
        if let Some(charge_file) = &read.charge_file {
            assert_eq!(linked::check(charge_file), None);
            let file = Job::from_bytes(charge_file);
            assert!(file.operations.is_empty() && file.turns.is_empty());
            assert_eq!(PlainList::of(&file.file.holds()), Ok(list));
            files += 1;
        }
    });
    if whole {
        assert!(files > 5_000, "results with a charge file: {files}");
    }
}

#[test]
fn damaged_jobs() {
    let mut tally = Tally::default();
    let whole = each_seed(DAMAGED, |seed| {
        let random = &mut Random::new(seed, "library damage");
        let job = make::small_job(random);
        let bytes = job.to_bytes();
        let (result, rows, memory) = least_lent(&bytes);
        for number in NUMBERS {
            let damaged = match fault(random, &job, number) {
                Some(fault) if random.percent(60) => fault.apply(&bytes),
                _ => scribble(random, &bytes),
            };
            let lent = if random.percent(20) {
                (0, 0, 0)
            } else {
                (result, rows, memory)
            };
            if let Outcome::Refused { number, .. } = agree(&damaged, lent.0, lent.1, lent.2) {
                tally.count(number);
            }
        }
    });
    if whole {
        tally.all_met(NUMBERS.into_iter().chain([11]), 100);
    }
}

#[test]
fn too_little_lent() {
    few_seeds(2_000, |seed| {
        let random = &mut Random::new(seed, "library output");
        let bytes = make::small_job(random).to_bytes();
        let (result, rows, memory) = least_lent(&bytes);
        let refused = |place| Outcome::Refused { number: 11, place };
        assert_eq!(agree(&bytes, result - 1, 0, 0), refused(0));
        assert_eq!(agree(&bytes, result, rows, memory - 1), refused(2));
        if rows > 0 {
            assert_eq!(agree(&bytes, result, rows - 1, 0), refused(1));
        }
        assert!(matches!(
            agree(&bytes, result, rows, memory),
            Outcome::Done { .. }
        ));
    });
}
