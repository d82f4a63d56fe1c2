//! The library's inserts in a job: behind a charge file, under a header that counts them, they are its operations as they stand.

use chargefile_tests::answer::Code;
use chargefile_tests::check::least_lent;
use chargefile_tests::deal;
use chargefile_tests::explain::explain;
use chargefile_tests::job::Job;
use chargefile_tests::make;
use chargefile_tests::make_months::between_months;
use chargefile_tests::make_tariff;
use chargefile_tests::plain_list::{told, PlainList};
use chargefile_tests::random::Random;
use chargefile_tests::result::{self, Contents};
use chargefile_tests::seeds::each_seed;
use chargefile_tests::tally::all_seen;
use chargefile_tests::tariff::{log_bytes, tariff_bytes, Band, Logged};

use crate::linked::{self, Lent};
use crate::priced_by_both;

const JOBS: u64 = 400;

/// Turns that are enough for any operation, one after the other.
const ENOUGH_TURNS: usize = 294;

/// A charge file with these operations behind it, and its header written anew: their count, where the turns begin, and the total.
fn job_of(file: &[u8], operations: &[u8], turns: &[u8]) -> Vec<u8> {
    let mut job = [file, operations, turns].concat();
    let end = (file.len() + operations.len()) as u32;
    let counts = [operations.len() / 10, turns.len() / 2];
    for (place, count) in [8, 10].into_iter().zip(counts) {
        job[place..place + 2].copy_from_slice(&(count as u16).to_le_bytes());
    }
    let total = job.len() as u32;
    job[24..28].copy_from_slice(&end.to_le_bytes());
    job[28..32].copy_from_slice(&total.to_le_bytes());
    job
}

/// What the library's run of a job says; all of it is finished.
fn its_run(job: &[u8]) -> Contents {
    assert_eq!(linked::check(job), None);
    let (room, rows, memory) = least_lent(job);
    let told = linked::run(job, &mut Lent::new(room, rows, memory));
    let contents = result::from_bytes(&told.expect("it is run")).unwrap();
    assert_eq!(contents.under_way, 0);
    contents
}

/// A month's charge file, and a switch's log of some of its calls, and of others.
struct Month {
    file: Vec<u8>,
    bands: Vec<Band>,
    log: Vec<Logged>,
}

impl Month {
    fn new(random: &mut Random, records: usize) -> Month {
        let file = between_months(random);
        let mut calls = make::pool(random, file.depth);
        calls.extend(file.holds().iter().map(|record| record.call));
        let bands = make_tariff::tariff(random, 6);
        let mut log = make_tariff::log(random, &bands, records);
        for record in &mut log {
            record.call = random.one_of(&calls);
        }
        Month {
            file: Job::charge_file(&file),
            bands,
            log,
        }
    }

    /// The inserts that the library makes of the log.
    fn inserts(&self) -> Vec<u8> {
        priced_by_both(&tariff_bytes(&self.bands), &log_bytes(&self.log))
    }

    /// Call and charge of each record.
    fn charged(&self) -> Vec<(u32, u32)> {
        let charged = |record: &Logged| {
            let its_own = |band: &&Band| band.code == record.band;
            let band = self.bands.iter().find(its_own).expect("a band");
            let charge = band.charge(record.start, record.talked);
            (record.call, charge as u32)
        };
        self.log.iter().map(charged).collect()
    }
}

/// The codes of answers: stored, already there, and no depth or no page.
#[derive(Default)]
struct Codes {
    stored: usize,
    there: usize,
    no_room: usize,
}

impl Codes {
    fn count(&mut self, code: Code) {
        match code {
            Code::Stored => self.stored += 1,
            Code::AlreadyThere => self.there += 1,
            Code::NoDepth | Code::NoPage => self.no_room += 1,
            other => panic!("no answer of an insert: {other:?}"),
        }
    }

    fn all_seen(&self, least: usize) {
        all_seen([
            ("stored", self.stored, least),
            ("already there", self.there, least),
            ("no room", self.no_room, least),
        ]);
    }
}

/// Turns are dealt for the job, and its run's log explains the answers.
#[test]
fn dealt_and_run() {
    let mut codes = Codes::default();
    let whole = each_seed(JOBS, |seed| {
        let random = &mut Random::new(seed, "library priced and dealt");
        let records = random.one_of(&[1, 5, 30, 30, 256]);
        let month = Month::new(random, records);
        let job = job_of(&month.file, &month.inserts(), &[]);
        let (out, rows, memory) = deal::least_lent(&job, records);
        let dealt = linked::deal(&job, &mut Lent::new(out, rows, memory));
        let dealt = dealt.expect("it has no turns");
        let (contents, job) = (its_run(&dealt), Job::from_bytes(&dealt));
        let operations = job.operations.iter();
        let inserted: Vec<(u32, u32)> = operations.map(|o| (o.call, o.charge)).collect();
        assert_eq!(inserted, month.charged());
        explain(&job, &contents).unwrap();
        contents
            .answers
            .iter()
            .for_each(|answer| codes.count(answer.code));
    });
    if whole {
        codes.all_seen(1_500);
    }
}

/// Run one after the other, in the order of the switch's log: of two records with one call number the first is stored, and the other finds it there, at the
/// first one's charge.
#[test]
fn one_after_the_other() {
    let mut codes = Codes::default();
    let whole = each_seed(JOBS, |seed| {
        let random = &mut Random::new(seed, "library priced in order");
        let records = random.between(1, 24);
        let month = Month::new(random, records);
        let turn = |i: usize| (i as u16).to_le_bytes().repeat(ENOUGH_TURNS);
        let turns: Vec<u8> = (0..records).flat_map(turn).collect();
        let job = job_of(&month.file, &month.inserts(), &turns);
        let contents = its_run(&job);
        let job = Job::from_bytes(&job);
        let mut list = PlainList::of(&job.file.holds()).unwrap();
        for (operation, answer) in job.operations.iter().zip(&contents.answers) {
            let fed = list.feed(operation, told(operation, answer.code));
            assert_eq!((answer.code, answer.charge), fed);
            codes.count(answer.code);
        }
        let left = contents.charge_file.expect("all are finished");
        let left = Job::from_bytes(&left).file.holds();
        assert_eq!(PlainList::of(&left), Ok(list));
    });
    if whole {
        codes.all_seen(500);
    }
}
