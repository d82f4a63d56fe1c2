//! One month after another, with tidying between them: "a run that begins from a tidied file is explained by its log like any other".

use chargefile_tests::answer::Code;
use chargefile_tests::asked::Asked;
use chargefile_tests::explain::{explain, explain_from};
use chargefile_tests::file::ChargeFile;
use chargefile_tests::job::Job;
use chargefile_tests::make;
use chargefile_tests::make_months::{between_months, month, month_of_deletes};
use chargefile_tests::plain_list::PlainList;
use chargefile_tests::random::Random;
use chargefile_tests::result::Contents;
use chargefile_tests::run::Run;
use chargefile_tests::seeds::each_seed;
use chargefile_tests::tally::all_seen;
use chargefile_tests::{check, tidy, Outcome};

const RUNS: u64 = 6_000;
const CHAINS: u64 = 1_500;

/// The file tidied at one of the depths that are taken, any of them.
fn tidied(random: &mut Random, file: &ChargeFile) -> ChargeFile {
    let bytes = Job::charge_file(file);
    let at = |depth| match tidy(&bytes, depth, 17_952) {
        Outcome::Done { result } => Some(Job::from_bytes(&result).file),
        Outcome::Refused { .. } => None,
    };
    let mut depths: Vec<u64> = (0..=8).collect();
    random.shuffle(&mut depths);
    let taken = depths.into_iter().find_map(at);
    taken.expect("no page is deeper than 8, so 8 is taken")
}

/// Deals a job its turns, and asks after each that "no page number comes back into use during a run": U does not fall, and a page that some entry
/// names stays named.
fn dealt(job: &Job) -> Run {
    assert_eq!(check(&job.to_bytes()), None);
    let mut run = Run::new(job);
    let mut named = vec![false; job.file.pages.len() + 1];
    for &number in &job.file.directory {
        named[number] = true;
    }
    for &operation in &job.turns {
        let before = run.shared.file.in_use;
        run.deal(operation);
        let file = &run.shared.file;
        assert!(file.in_use >= before, "U falls");
        for &number in &file.directory {
            assert!(number <= file.in_use);
            named[number] = true;
        }
        let stays = |number: usize| !named[number] || file.directory.contains(&number);
        assert!((0..named.len()).all(stays), "a page is given back");
    }
    run
}

/// How often an answer was given.
fn times(contents: &Contents, code: Code) -> usize {
    let given = contents.answers.iter().filter(|answer| answer.code == code);
    given.count()
}

#[test]
fn a_run_from_a_tidied_file_is_explained() {
    let (mut splits, mut asked) = (0, Asked::default());
    let (mut stored, mut deleted, mut no_page, mut no_depth) = (0, 0, 0, 0);
    let whole = each_seed(RUNS, |seed| {
        let random = &mut Random::new(seed, "run from tidied");
        let came_in = between_months(random);
        let file = tidied(random, &came_in);
        let calls = make::pool(random, file.depth);
        let mut job = month(random, file, &calls);
        if random.percent(30) {
            job.turns.truncate(random.below(60));
        }
        let run = dealt(&job);
        let contents = run.contents();
        let list = explain(&job, &contents).unwrap();
        assert_eq!(PlainList::of(&run.shared.file.holds()), Ok(list));
        splits += run.shared.tally.splits;
        for (operation, answer) in job.operations.iter().zip(&contents.answers) {
            asked.count(operation, answer);
        }
        stored += times(&contents, Code::Stored);
        deleted += times(&contents, Code::Deleted);
        no_page += times(&contents, Code::NoPage);
        no_depth += times(&contents, Code::NoDepth);
    });
    if whole {
        all_seen([
            ("splits", splits, 1_000),
            ("stored", stored, 5_000),
            ("deleted", deleted, 500),
            ("no page", no_page, 300),
            ("no depth", no_depth, 300),
        ]);
        println!("{asked:?}");
        asked.all_met(100);
    }
}

/// What was met over all months.
#[derive(Debug, Default)]
struct Seen {
    months: usize,
    splits: usize,
    tidied: usize,
    fewer_pages: usize,
    pages_taken_again: usize,
}

/// One month: its log goes on explaining on the list that the months before have left, and it leaves a file that holds what is in the list.
fn one_month(list: PlainList, job: &Job, seen: &mut Seen) -> (PlainList, ChargeFile) {
    let run = dealt(job);
    let list = explain_from(list, job, &run.contents()).unwrap();
    assert_eq!(run.under_way(), 0, "a month leaves a file");
    let file = run.shared.file;
    assert_eq!(PlainList::of(&file.holds()).as_ref(), Ok(&list));
    seen.months += 1;
    seen.splits += run.shared.tally.splits;
    (list, file)
}

/// Tidied or not.
fn between(random: &mut Random, file: ChargeFile, seen: &mut Seen) -> ChargeFile {
    if random.percent(30) {
        return file;
    }
    let left = tidied(random, &file);
    seen.tidied += 1;
    seen.fewer_pages += usize::from(left.in_use < file.in_use);
    left
}

/// All logs one after another explain all answers on one plain list, which starts as the first file's calls.
#[test]
fn the_logs_of_all_months_explain_all_answers() {
    let mut seen = Seen::default();
    let whole = each_seed(CHAINS, |seed| {
        let random = &mut Random::new(seed, "months");
        let mut file = between_months(random);
        let calls = make::pool(random, file.depth);
        let mut list = PlainList::of(&file.holds()).unwrap();
        let mut most_in_use = file.in_use;
        for _ in 0..random.between(2, 7) {
            let begun_from = file.in_use;
            let job = if random.percent(35) {
                month_of_deletes(random, file)
            } else {
                month(random, file, &calls)
            };
            (list, file) = one_month(list, &job, &mut seen);
            // numbers that were free again since an earlier month
            let again = file.in_use.min(most_in_use).saturating_sub(begun_from);
            seen.pages_taken_again += again;
            most_in_use = most_in_use.max(file.in_use);
            file = between(random, file, &mut seen);
        }
        assert_eq!(PlainList::of(&file.holds()), Ok(list));
    });
    if whole {
        println!("{seen:?}");
        all_seen([
            ("months", seen.months, 5_000),
            ("splits", seen.splits, 1_000),
            ("tidied files", seen.tidied, 3_000),
            ("with fewer pages", seen.fewer_pages, 1_000),
            ("pages taken again", seen.pages_taken_again, 500),
        ]);
    }
}
