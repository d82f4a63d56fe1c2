//! The files of examples/ are what `write_examples` writes, and each job shows what examples/README.md says of it.

use std::collections::BTreeSet;
use std::fs;
use std::path::{Path, PathBuf};

use chargefile_tests::answer::{Code, Line};
use chargefile_tests::examples::{self, examples, Example};
use chargefile_tests::examples_priced::{inn_log, inn_tariff, slips};
use chargefile_tests::job::{Counts, Job, Kind, Operation};
use chargefile_tests::key::{index, pseudo_key};
use chargefile_tests::page::Record;
use chargefile_tests::run::Run;
use chargefile_tests::tariff::insert_bytes;
use chargefile_tests::vectors;
use chargefile_tests::{check, price, report, tidy, Outcome};

/// The files of the folder that no program writes.
const BY_HAND: [&str; 11] = [
    "README.md",
    "april.ops",
    "deal.c",
    "job_files.h",
    "new_job.c",
    "next_month.c",
    "pages.c",
    "price.c",
    "put_in_order.c",
    "tidied.ops",
    "tidy.c",
];

fn folder() -> PathBuf {
    Path::new(env!("CARGO_MANIFEST_DIR")).join("../examples")
}

fn read(name: &str) -> Vec<u8> {
    fs::read(folder().join(name)).unwrap_or_else(|why| panic!("{name}: {why}"))
}

fn example(name: &str) -> Job {
    examples::example(name).job
}

/// The job dealt its whole turn list.
fn dealt(job: &Job) -> Run {
    let mut run = Run::new(job);
    run.deal_all(&job.turns);
    run
}

fn codes(run: &Run) -> Vec<Code> {
    run.answers().iter().map(|answer| answer.code).collect()
}

/// The moment of an operation, and the turns dealt to it.
fn moment_and_turns(job: &Job, run: &Run, operation: usize) -> (usize, Vec<usize>) {
    let mine = |line: &&Line| line.operation == operation;
    let moment = run.log().iter().find(mine).expect("a line").moment;
    let turns = job.turns.iter().enumerate();
    let dealt = turns.filter(|(_, named)| **named == operation);
    (moment, dealt.map(|(turn, _)| turn).collect())
}

#[test]
fn the_files_are_what_is_written() {
    let mut wanted = BTreeSet::from(BY_HAND.map(String::from));
    for example in examples() {
        let (name, bytes) = (example.name, example.bytes());
        assert!(read(&format!("{name}.job")) == bytes, "{name}.job");
        assert!(read(&format!("{name}.txt")) == report(&bytes), "{name}.txt");
        wanted.extend([format!("{name}.job"), format!("{name}.txt")]);
    }
    assert!(read("inn.tariff") == inn_tariff() && read("inn.log") == inn_log());
    wanted.extend(["inn.tariff", "inn.log"].map(String::from));
    let files = fs::read_dir(folder()).expect("the folder of examples");
    let name = |file: fs::DirEntry| file.file_name().into_string().expect("a plain name");
    let there: BTreeSet<String> = files.map(|file| name(file.expect("a file"))).collect();
    assert_eq!(there, wanted);
}

#[test]
fn each_has_its_text_in_the_readme() {
    let readme = String::from_utf8(read("README.md")).expect("text");
    for Example { name, .. } in examples() {
        assert!(readme.contains(&format!("\n## {name}\n")), "{name}");
    }
}

/// The calls of a job's pages and operations.
fn calls(job: &Job) -> BTreeSet<u32> {
    let stored = job.file.pages.iter().flat_map(|page| page.calls());
    stored
        .chain(job.operations.iter().map(|o| o.call))
        .collect()
}

#[test]
fn the_readme_has_the_first_bits_of_each_call() {
    let mut small = examples();
    small.retain(|example| !["forty", "month"].contains(&example.name));
    let all: BTreeSet<u32> = small.iter().flat_map(|e| calls(&e.job)).collect();
    let beginning = |entry: usize| -> String {
        let there = all.iter().filter(|call| index(**call, 4) == entry);
        let words: Vec<String> = there.map(u32::to_string).collect();
        words.join(" ")
    };
    let row = |bits: usize| {
        let (zero, one) = (beginning(2 * bits), beginning(2 * bits + 1));
        format!("| {bits:03b} | {zero} | {one} |\n")
    };
    let table: String = (0..8).map(row).collect();
    let readme = String::from_utf8(read("README.md")).expect("text");
    assert!(readme.contains(&table), "not in the README:\n{table}");
}

#[test]
fn blank_is_the_smallest_job() {
    let counts = example("blank").counts();
    assert_eq!(example("blank").to_bytes().len(), 32 + 2 + 12);
    assert_eq!((counts.depth, counts.capacity, counts.pages), (0, 1, 1));
    assert_eq!((counts.operations, counts.turns), (0, 0));
}

#[test]
fn job_e_is_the_marked_one() {
    let marked = vectors::read("00-base/marked-b");
    assert_eq!(read("job-e.job"), marked.job);
    assert_eq!(read("job-e.txt"), marked.print);
}

#[test]
fn april_begins_with_the_file_that_job_e_leaves() {
    let left = dealt(&example("job-e")).contents().charge_file;
    let april = example("april");
    assert_eq!(left, Some(Job::charge_file(&april.file)));
    let run = dealt(&april);
    assert!(run.waits > 0, "insert 6 waits for the delete");
    assert_eq!(run.unfinished().count(), 0);
    use Code::{Deleted, Found, NoDepth, Stored};
    assert_eq!(codes(&run), [Stored, Deleted, Stored, Stored, Found]);
    let insert_first = |turn: &usize| [0, 2, 1, 3, 4][*turn];
    let other_way = Job {
        turns: april.turns.iter().map(insert_first).collect(),
        ..april
    };
    let run = dealt(&other_way);
    assert_eq!(run.unfinished().count(), 0);
    assert_eq!(codes(&run), [Stored, Deleted, NoDepth, Stored, Found]);
}

#[test]
fn hotel_contends_splits_and_ends() {
    let run = dealt(&example("hotel"));
    assert!(run.waits >= 5, "{} waits", run.waits);
    assert_eq!(run.shared.tally.splits, 2);
    assert_eq!(run.shared.tally.retries, 1, "delete 42 lets page 1 go");
    assert_eq!(run.shared.file.in_use, 4, "all pages are in use");
    assert_eq!(run.unfinished().count(), 0);
    let refused = [Code::AlreadyThere, Code::NoDepth, Code::NoPage];
    for code in refused {
        assert!(codes(&run).contains(&code), "{code:?}");
    }
}

#[test]
fn school_stops_early() {
    let run = dealt(&example("school"));
    let told = [Code::Found, Code::Stored, Code::NotYet, Code::NotYet];
    assert_eq!(codes(&run), told);
    assert_eq!(run.under_way(), 2, "the insert and the delete");
    assert!(!run.rows[1].progress.finished(), "stored, but under way");
    assert_eq!(run.rows[3].first_turn, None, "the last search is not begun");
    assert!(run.contents().charge_file.is_none());
}

#[test]
fn priced_has_the_charges_that_were_worked_by_hand() {
    let result = slips()
        .map(|slip| insert_bytes(slip.record.call, slip.charge))
        .concat();
    assert!(example("priced")
        .to_bytes()
        .windows(result.len())
        .any(|bytes| bytes == result));
    let outcome = price(&inn_tariff(), &inn_log(), result.len());
    assert_eq!(outcome, Outcome::Done { result });
}

#[test]
fn stale_searches_have_the_moment_of_the_change() {
    let job = example("stale");
    let run = dealt(&job);
    assert_eq!(run.shared.tally.stale_found, 2);
    assert_eq!(run.shared.tally.stale_found_gone, 1, "call 3 was deleted");
    let (deleted, _) = moment_and_turns(&job, &run, 3);
    for (search, change) in [(1, 7), (2, 8)] {
        let (moment, turns) = moment_and_turns(&job, &run, search);
        assert_eq!(moment, change);
        assert!(
            !turns.contains(&moment),
            "a turn of the insert, not its own"
        );
        assert!(moment < deleted && deleted < turns[1]);
    }
}

#[test]
fn cards_spread_and_two_of_one_key_stay_together() {
    use Code::{Deleted, Found, NoDepth, None, Stored};
    let job = example("cards");
    let mut run = Run::new(&job);
    run.deal_all(&job.turns[..24]);
    assert_eq!((run.waits, run.shared.tally.splits), (0, 0));
    for number in 1..=4 {
        let calls = run.shared.file.page(number).calls();
        assert_eq!(calls.len(), 2, "page {number}");
        assert!(calls.iter().all(|call| call % 256 == 5), "card 5 alone");
    }
    let pair = [141_231_736, 474_790_318];
    assert_eq!(pseudo_key(pair[0]), pseudo_key(pair[1]));
    run.deal_all(&job.turns[24..50]);
    assert!(run.waits > 0, "the second of the two waits for the first");
    assert_eq!(run.shared.tally.splits, 1);
    assert_eq!(run.shared.file.page(2).calls(), pair);
    run.deal_all(&job.turns[50..]);
    assert_eq!(run.unfinished().count(), 0);
    assert_eq!(codes(&run)[..6], [Stored; 6]);
    let told = [NoDepth, Found, Deleted, None, Found, Stored];
    assert_eq!(codes(&run)[6..], told);
    assert_eq!(run.shared.file.page(2).calls(), [7, pair[0]]);
}

#[test]
fn thin_leaves_pages_that_can_be_joined() {
    let run = dealt(&example("thin"));
    assert_eq!(codes(&run), [Code::Deleted; 8]);
    assert_eq!(run.unfinished().count(), 0);
    let file = &run.shared.file;
    assert_eq!((file.in_use, file.pages.len()), (5, 5), "no page is left");
    let calls: Vec<Vec<u32>> = file.pages.iter().map(|page| page.calls()).collect();
    assert_eq!(
        calls,
        [vec![11], vec![3, 12, 19], vec![10], vec![14], vec![15]]
    );
}

#[test]
fn tidied_has_the_calls_that_thin_leaves_and_room_for_more() {
    let (thin, tidied) = (dealt(&example("thin")), example("tidied"));
    let sorted = |mut held: Vec<Record>| {
        held.sort();
        held
    };
    assert_eq!(
        sorted(thin.shared.file.holds()),
        sorted(tidied.file.holds())
    );
    let result = Job::charge_file(&tidied.file);
    let left = Job::charge_file(&thin.shared.file);
    assert_eq!(tidy(&left, 4, result.len()), Outcome::Done { result });
    assert_eq!(check(&tidied.to_bytes()), None);
    let told = [Code::Stored, Code::Stored, Code::Found];
    assert_eq!(codes(&dealt(&tidied)), told);
    assert_eq!(dealt(&tidied).unfinished().count(), 0);
    let not_tidied = Job {
        file: thin.shared.file,
        ..tidied
    };
    let told = [Code::NoPage, Code::NoDepth, Code::Found];
    assert_eq!(codes(&dealt(&not_tidied)), told);
}

#[test]
fn misfiled_names_the_record() {
    let job = example("misfiled").to_bytes();
    assert_eq!(check(&job), Some((8, 76)));
    let call = u32::from_le_bytes(job[76..80].try_into().expect("four bytes"));
    assert_eq!(call, 7);
}

#[test]
fn late_calls_go_before_the_higher_ones() {
    let run = dealt(&example("late"));
    assert_eq!(codes(&run), [Code::Stored; 4]);
    assert_eq!(run.shared.tally.splits, 1, "insert 7 splits page 1");
    let calls = |number: usize| run.shared.file.page(number).calls();
    assert_eq!((calls(1), calls(2)), (vec![4, 7, 9], vec![3, 5, 8]));
}

#[test]
fn bursars_strike_out_only_at_the_charge_they_saw() {
    let job = example("bursars");
    let run = dealt(&job);
    let answers = run.answers();
    let told: Vec<(Code, u32)> = answers.iter().map(|a| (a.code, a.charge)).collect();
    let wanted = [
        (Code::Differs, 250),
        (Code::Deleted, 250),
        (Code::Stored, 270),
        (Code::Differs, 270),
        (Code::Deleted, 75),
        (Code::Absent, 0),
    ];
    assert_eq!(told, wanted);
    assert_eq!(run.unfinished().count(), 0);
    for (old, turn_d) in [(0, 5), (3, 42)] {
        let (moment, turns) = moment_and_turns(&job, &run, old);
        assert_eq!(moment, turn_d, "operation {old}");
        assert!(turns.contains(&moment), "its own turn");
    }
    let at_any_charge = Job {
        operations: job.operations.iter().map(uncharged).collect(),
        turns: (0..6).flat_map(|operation| [operation; 6]).collect(),
        ..job
    };
    let told = [Code::Deleted, Code::Absent, Code::Stored, Code::Deleted];
    assert_eq!(
        codes(&dealt(&at_any_charge))[..4],
        told,
        "the new charge is lost"
    );
}

/// A delete with no charge; any other operation as it is.
fn uncharged(operation: &Operation) -> Operation {
    let mut uncharged = *operation;
    if operation.kind == Kind::Delete {
        uncharged.charge = 0;
    }
    uncharged
}

#[test]
fn exchanged_names_the_second() {
    let example = examples::example("exchanged");
    let job = example.bytes();
    assert_eq!(check(&job), Some((8, 48)));
    assert_eq!(job[40..44], [0, 1, 0, 0], "call 256");
    assert_eq!(job[48..52], [254, 0, 0, 0], "call 254");
    let mut mended = example.job;
    mended.file.page_mut(1).records.reverse();
    assert_eq!(check(&mended.to_bytes()), None);
}

#[test]
fn wide_names_the_pattern() {
    let example = examples::example("wide");
    let job = example.bytes();
    assert_eq!(check(&job), Some((12, 62)));
    assert_eq!(job[60..64], [1, 2, 2, 0], "depth 1, pattern 2");
    let mut mended = example.job;
    mended.file.page_mut(2).pattern = 1;
    assert_eq!(check(&mended.to_bytes()), None);
}

#[test]
fn leftover_names_the_first_byte_that_is_left() {
    let mut job = examples::example("leftover").bytes();
    assert_eq!(check(&job), Some((13, 57)));
    assert_eq!(job[36..40], [1, 2, 0, 0], "two records");
    assert_eq!(job[48..56], job[56..64], "the second record and a third");
    job[57] = 0;
    assert_eq!(check(&job), Some((13, 60)));
    job[60] = 0;
    assert_eq!(check(&job), None);
}

#[test]
fn month_is_at_the_limits_and_ends() {
    let job = example("month");
    let largest = Counts {
        depth: 8,
        capacity: 8,
        pages: 256,
        in_use: 128,
        operations: 256,
        turns: 16_384,
    };
    assert_eq!(job.counts(), largest);
    assert_eq!(job.to_bytes().len(), 53_280);
    let full = |number: usize| job.file.page(number).records.len() == 8;
    assert!((1..=128).all(full), "to the brim");
    let highest = job.file.holds().iter().map(|r| r.call).max();
    assert_eq!(highest, Some(1520));
    let call = |i: usize| job.operations[i].call;
    assert_eq!((call(0), call(127)), (1521, 1784), "the first inserts");
    assert_eq!(call(128 + 52), 1784, "the last search that finds its call");
    assert!((249..256).all(|i| job.file.entry_of(call(i)) == 0));
    let run = dealt(&job);
    assert_eq!(run.shared.file.in_use, 256);
    assert_eq!(run.unfinished().count(), 0);
    let told = codes(&run);
    let count = |code: Code| told.iter().filter(|told| **told == code).count();
    assert_eq!(count(Code::Stored), 128 + 4);
    assert_eq!(count(Code::NoDepth), 3);
    assert_eq!((count(Code::Found), count(Code::None)), (53, 11));
    assert_eq!((count(Code::Deleted), count(Code::Absent)), (55, 2));
}
