//! Random jobs with contended turn lists: the log explains every answer, real
//! time is kept, nothing gets stuck, and the charge file is the file.

use chargefile_tests::answer::{Code, CODES};
use chargefile_tests::asked::Asked;
use chargefile_tests::check;
use chargefile_tests::explain::explain;
use chargefile_tests::job::{Job, Kind};
use chargefile_tests::make;
use chargefile_tests::plain_list::PlainList;
use chargefile_tests::random::Random;
use chargefile_tests::result::{self, Contents};
use chargefile_tests::run::{result_bytes, Run};
use chargefile_tests::seeds::each_seed;
use chargefile_tests::shared::Tally;
use chargefile_tests::tally::all_seen;
use chargefile_tests::turn::Turned;

const JOBS: u64 = 24_000;

/// What was met over all jobs.
#[derive(Debug, Default)]
struct Seen {
    jobs: usize,
    turns: usize,
    waits: usize,
    idle: usize,
    tally: Tally,
    codes: [usize; CODES.len()],
    asked: Asked,
    stops_midway: usize,
    settled_but_unfinished: usize,
    charge_files: usize,
    not_begun: usize,
    one_page_files: usize,
    files_of_256_pages: usize,
    turns_to_finish: usize,
}

impl Seen {
    fn add(&mut self, job: &Job, run: &Run, contents: &Contents) {
        self.jobs += 1;
        self.turns += run.now;
        self.waits += run.waits;
        self.idle += run.idle;
        let (sum, one) = (&mut self.tally, &run.shared.tally);
        sum.splits += one.splits;
        sum.multi_page_splits += one.multi_page_splits;
        sum.largest_split = sum.largest_split.max(one.largest_split);
        sum.stored_in_new_page += one.stored_in_new_page;
        sum.retries += one.retries;
        sum.search_retries += one.search_retries;
        sum.stale_found += one.stale_found;
        sum.stale_found_gone += one.stale_found_gone;
        for (operation, answer) in job.operations.iter().zip(&contents.answers) {
            self.codes[answer.code.number()] += 1;
            self.asked.count(operation, answer);
        }
        let rows = || run.rows.iter();
        let settled = rows().filter(|row| row.progress.settled.is_some());
        self.settled_but_unfinished += settled.filter(|row| row.ended_on.is_none()).count();
        self.not_begun += rows().filter(|row| row.first_turn.is_none()).count();
        self.stops_midway += usize::from(contents.under_way > 0);
        self.charge_files += usize::from(contents.charge_file.is_some());
        self.one_page_files += usize::from(job.file.in_use == 1);
        self.files_of_256_pages += usize::from(job.file.in_use == 256);
    }

    /// The random jobs are worth nothing if they miss the hard cases.
    fn has_everything(&self) {
        let tally = &self.tally;
        all_seen([
            ("splits", tally.splits, 20_000),
            ("multi-page splits", tally.multi_page_splits, 5_000),
            ("stored in a new page", tally.stored_in_new_page, 5_000),
            ("retries of inserts and deletes", tally.retries, 2_000),
            ("retries of searches", tally.search_retries, 200),
            ("stale found searches", tally.stale_found, 200),
            ("and the record gone", tally.stale_found_gone, 100),
            ("waiting turns", self.waits, 100_000),
            ("turns of finished operations", self.idle, 100_000),
            ("lists that stop midway", self.stops_midway, 2_000),
            (
                "answered but unfinished",
                self.settled_but_unfinished,
                1_000,
            ),
            ("operations not begun", self.not_begun, 5_000),
            ("charge files", self.charge_files, 2_000),
            ("files of one page", self.one_page_files, 1_000),
            ("files of 256 pages", self.files_of_256_pages, 20),
        ]);
        assert_eq!(tally.largest_split, 8, "the largest n is g - l: {self:?}");
        let rarest = self.codes.iter().min().unwrap();
        assert!(*rarest >= 4_000, "codes: {:?}", self.codes);
        self.asked.all_met(1_000);
    }
}

#[test]
fn the_log_explains_random_jobs() {
    let mut seen = Seen::default();
    let whole = each_seed(JOBS, |seed| one_job(seed, &mut seen));
    println!("{seen:#?}");
    assert!(seen.jobs > 0);
    if whole {
        seen.has_everything();
    }
}

fn one_job(seed: u64, seen: &mut Seen) {
    let job = make::job(&mut Random::new(seed, "random jobs"));
    let bytes = job.to_bytes();
    assert_eq!(check(&bytes), None, "a sound job is run");
    assert_eq!(Job::from_bytes(&bytes), job);

    let mut under_way = deal_watched(&job);
    let contents = result_of(&bytes);
    assert_eq!(contents, under_way.contents(), "the result is the run's");
    seen.add(&job, &under_way, &contents);

    explained(&job, &contents, &under_way);
    charge_file_is_the_file(&contents, &under_way);
    seen.turns_to_finish += finish(&mut under_way);
    explained(&job, &under_way.contents(), &under_way);
    charge_file_is_the_file(&under_way.contents(), &under_way);
    no_turns_change_nothing(&job, &bytes);
}

/// The result by the public call.
fn result_of(job: &[u8]) -> Contents {
    result::from_bytes(&result_bytes(job)).unwrap()
}

/// Deals the turns and watches each: what a turn came to, and that someone
/// can use the next one. "A list that stops early is a shorter list", so what
/// is asked at the end of a list is asked after every turn.
fn deal_watched(job: &Job) -> Run {
    let mut run = Run::new(job);
    let mut used = vec![0; job.operations.len()];
    someone_can_go_on(&run);
    for &operation in &job.turns {
        let ended = run.rows[operation].ended_on.is_some();
        let could = run.can_use_a_turn(operation);
        let turned = run.deal(operation);
        let search = job.operations[operation].kind == Kind::Search;
        assert!(!(search && turned == Turned::Waited), "a search waited");
        assert_eq!(turned == Turned::Idle, ended, "only the finished idle");
        assert_eq!(turned == Turned::Did, could);
        used[operation] += usize::from(turned == Turned::Did);
        someone_can_go_on(&run);
    }
    for (answer, used) in run.answers().iter().zip(used) {
        assert_eq!(answer.turns, used, "turns used without waiting");
    }
    run
}

/// "An unfinished operation can use a turn if the next turn, given to it,
/// would not wait": with any unfinished, one can.
fn someone_can_go_on(run: &Run) {
    let mut unfinished = run.unfinished().peekable();
    let stuck = unfinished.peek().is_some() && !unfinished.any(|i| run.can_use_a_turn(i));
    assert!(!stuck, "every unfinished operation would wait");
}

/// The plain list agrees line for line and at the end; real time is kept; a
/// finished operation is answered and holds no lock.
fn explained(job: &Job, contents: &Contents, run: &Run) {
    let list = explain(job, contents).unwrap();
    let held = PlainList::of(&run.shared.file.holds()).unwrap();
    assert_eq!(list, held, "the plain list is what the file holds");
    real_time_order(contents, run);
    for (number, row) in run.rows.iter().enumerate() {
        if row.ended_on.is_some() {
            assert_ne!(contents.answers[number].code, Code::NotYet);
            assert_eq!(run.shared.locked_by(number), 0);
        }
        assert!(row.first_turn.is_some() || row.progress.settled.is_none());
    }
}

/// An operation that ended before another's first turn stands before it in
/// the log, if both are in it.
fn real_time_order(contents: &Contents, run: &Run) {
    let log = &contents.log;
    // No later line may have ended before this one began; it is enough to
    // look at the earliest end among the later lines.
    let mut earliest_end = usize::MAX;
    for line in log.iter().rev() {
        let row = &run.rows[line.operation];
        let first = row.first_turn.expect("in the log, so begun");
        assert!(earliest_end >= first, "{line:?} stands too early");
        earliest_end = earliest_end.min(row.ended_on.unwrap_or(usize::MAX));
    }
}

/// "A charge file in the result is that file": a job of its own, with no
/// operations and no turns, that gives itself back.
fn charge_file_is_the_file(contents: &Contents, run: &Run) {
    let Some(charge_file) = &contents.charge_file else {
        assert!(run.under_way() > 0, "a charge file is left out");
        return;
    };
    assert_eq!(check(charge_file), None, "a charge file is a sound job");
    let again = Job::from_bytes(charge_file);
    assert_eq!(again.file, run.shared.file);
    assert!(again.operations.is_empty() && again.turns.is_empty());
    let itself = result_of(charge_file).charge_file;
    assert_eq!(itself.as_ref(), Some(charge_file));
}

/// Deals further turns round and round; every operation finishes.
fn finish(run: &mut Run) -> usize {
    let before = run.now;
    // An insert takes no more than 1 turn for (a), 3 for each of 9 rounds, 1
    // for (d), 8 new pages, 256 entries and 3 at the end; each round of turns
    // does at least one of these.
    let rounds = 296 * run.rows.len();
    for _ in 0..rounds {
        let open: Vec<usize> = run.unfinished().collect();
        if open.is_empty() {
            break;
        }
        run.deal_all(&open);
    }
    assert_eq!(run.unfinished().count(), 0, "not all finished");
    run.now - before
}

/// With no turns, directory and pages come back byte for byte, under a header
/// with no operations and no turns.
fn no_turns_change_nothing(job: &Job, bytes: &[u8]) {
    let still = Job {
        turns: Vec::new(),
        ..job.clone()
    };
    let contents = result_of(&still.to_bytes());
    let charge_file = contents.charge_file.expect("nothing is begun");
    let end = job.counts().layout().operations;
    assert_eq!(charge_file.len(), end);
    assert_eq!(charge_file[..8], bytes[..8]);
    assert_eq!(charge_file[8..12], [0; 4]);
    assert_eq!(charge_file[12..24], bytes[12..24]);
    let total = (end as u32).to_le_bytes();
    assert_eq!(charge_file[24..28], total);
    assert_eq!(charge_file[28..32], total);
    assert_eq!(charge_file[32..], bytes[32..end]);
    assert!(contents.log.is_empty());
}
