//! The ten marked items of the document ("Jobs worked through"), and the row that
//! joins them ("(C) with calls 5 and 6 in the page"), made here from its words and
//! not from stored jobs.
//!
//! The first bits of the pseudo keys, by which all of it can be followed by hand:
//! call 1 has 11, 2 has 11, 3 has 10, 4 has 00, 5 has 10, 6 has 10, 9 has 01.

use chargefile_tests::answer::Code;
use chargefile_tests::file::ChargeFile;
use chargefile_tests::job::{Job, Kind, Operation};
use chargefile_tests::key::pseudo_key;
use chargefile_tests::page::{Page, Record};
use chargefile_tests::result::{self, answer_bytes, Contents};
use chargefile_tests::run::result_bytes;
use chargefile_tests::split::new_pages_needed;
use chargefile_tests::{check, report, run, Outcome};

const JOB_E_TEXT: &str = "\
job depth 1 capacity 2 pages 2 operations 4 turns 20
op 0 insert 4 stored 90 turns 9
op 1 search 3 found 70 turns 2
op 2 delete 3 deleted 70 turns 6
op 3 search 3 none 0 turns 3
at 6 op 1
at 12 op 2
at 15 op 3
at 18 op 0
page 1 depth 1 pattern 0 : 4=90
page 2 depth 1 pattern 1 : 2=50
";

fn operation(kind: Kind, call: u32, charge: u32) -> Operation {
    Operation { kind, call, charge }
}

/// A file with one page of depth 0 that has these calls.
fn one_page(depth: u32, page_count: usize, records: &[(u32, u32)]) -> ChargeFile {
    let mut file = ChargeFile::empty(depth, 2, page_count);
    for &(call, charge) in records {
        file.page_mut(1).records.push(Record { call, charge });
    }
    file
}

fn job_e() -> Job {
    Job {
        file: one_page(1, 2, &[(2, 50), (3, 70)]),
        operations: vec![
            operation(Kind::Insert, 4, 90),
            operation(Kind::Search, 3, 0),
            operation(Kind::Delete, 3, 0),
            operation(Kind::Search, 3, 0),
        ],
        turns: vec![1, 0, 0, 0, 0, 0, 0, 0, 2, 2, 2, 2, 2, 2, 3, 3, 3, 1, 0, 0],
    }
}

/// The file of (C) to (F), with so many pages, and one insert that runs to
/// its end.
fn insert_into_full(page_count: usize, call: u32) -> Job {
    insert_beside([1, 5], page_count, call)
}

/// The same with other calls in the page.
fn insert_beside([one, other]: [u32; 2], page_count: usize, call: u32) -> Job {
    Job {
        file: one_page(2, page_count, &[(one, 10), (other, 20)]),
        operations: vec![operation(Kind::Insert, call, 30)],
        turns: vec![0; 20],
    }
}

fn text(job: &Job) -> String {
    String::from_utf8(report(&job.to_bytes())).unwrap()
}

fn done(job: &Job) -> Contents {
    result::from_bytes(&result_bytes(&job.to_bytes())).unwrap()
}

fn only_answer(job: &Job) -> (Code, u32) {
    let answers = done(job).answers;
    assert_eq!(answers.len(), 1);
    (answers[0].code, answers[0].charge)
}

/// The turns that the one operation used, and its moment.
fn turns_and_moment(job: &Job) -> (usize, usize) {
    let contents = done(job);
    assert_eq!((contents.answers.len(), contents.log.len()), (1, 1));
    (contents.answers[0].turns, contents.log[0].moment)
}

/// The byte behind each answer's code, as it stands in the result.
fn page_bytes(job: &Job) -> Vec<u8> {
    let result = result_bytes(&job.to_bytes());
    let answers = answer_bytes(&result, job.operations.len());
    answers.map(|answer| answer[1]).collect()
}

fn page(depth: u32, pattern: u32, records: &[(u32, u32)]) -> Page {
    let record = |&(call, charge): &(u32, u32)| Record { call, charge };
    Page {
        depth,
        pattern,
        records: records.iter().map(record).collect(),
    }
}

#[test]
fn a_pseudo_keys() {
    assert_eq!(pseudo_key(1), 0xfb69_b604);
    assert_eq!(pseudo_key(6), 0xab3d_76f3);
    assert_eq!(pseudo_key(0), 0x4b95_f515);
}

/// What is said of the first bits in front.
#[test]
fn first_bits() {
    let calls = [1, 2, 3, 4, 5, 6, 9];
    let bits = calls.map(|call| pseudo_key(call) >> 30);
    assert_eq!(bits, [0b11, 0b11, 0b10, 0b00, 0b10, 0b10, 0b01]);
}

#[test]
fn b_job_e() {
    let job = job_e();
    assert_eq!(job.to_bytes().len(), 156);
    assert_eq!(text(&job), JOB_E_TEXT);
    assert_eq!(page_bytes(&job), [0, 0, 1, 1]);
}

#[test]
fn c_insert_3_needs_two_pages() {
    let job = insert_into_full(3, 3);
    assert_eq!(new_pages_needed(job.file.page(1), 3, 2), Some(2));
    let contents = done(&job);
    assert_eq!(only_answer(&job), (Code::Stored, 30));
    let after = Job::from_bytes(&contents.charge_file.unwrap()).file;
    assert_eq!(after.in_use, 3);
    assert_eq!(*after.page(1), page(1, 0, &[]));
    assert_eq!(*after.page(2), page(2, 2, &[(3, 30), (5, 20)]));
    assert_eq!(*after.page(3), page(2, 3, &[(1, 10)]));
    assert_eq!(after.directory, [1, 1, 2, 3]);
    assert_eq!(page_bytes(&job), [1]);
    // (a) to (d), two new pages, entry 2, which is the call's own, on turn 6,
    // entry 3, the new pages unlocked, the old one written and unlocked
    assert_eq!(turns_and_moment(&job), (11, 6));
}

#[test]
fn d_with_two_pages_no_page() {
    let job = insert_into_full(2, 3);
    assert_eq!(only_answer(&job), (Code::NoPage, 0));
    let after = done(&job).charge_file.unwrap();
    assert_eq!(after, Job::charge_file(&job.file));
    assert_eq!(page_bytes(&job), [0]);
    assert_eq!(turns_and_moment(&job), (5, 3));
}

/// Call 9 parts from 1 and 5 at the first bit, and stays in the old page.
#[test]
fn e2_insert_9_is_stored() {
    let job = insert_into_full(2, 9);
    assert_eq!(new_pages_needed(job.file.page(1), 9, 2), Some(1));
    assert_eq!(only_answer(&job), (Code::Stored, 30));
    let after = Job::from_bytes(&done(&job).charge_file.unwrap()).file;
    assert_eq!(after.in_use, 2);
    assert_eq!(*after.page(1), page(1, 0, &[(9, 30)]));
    assert_eq!(*after.page(2), page(1, 1, &[(1, 10), (5, 20)]));
    assert_eq!(after.directory, [1, 1, 2, 2]);
    assert_eq!(page_bytes(&job), [0]);
    // (a) to (d), a new page, entries 2 and 3, the new page unlocked, the old
    // one written on turn 8 and unlocked
    assert_eq!(turns_and_moment(&job), (10, 8));
}

/// The row that joins them: calls 3, 5 and 6 share their first two bits.
#[test]
fn c_with_calls_5_and_6_no_depth() {
    let job = insert_beside([5, 6], 3, 3);
    assert_eq!(new_pages_needed(job.file.page(1), 3, 2), None);
    assert_eq!(only_answer(&job), (Code::NoDepth, 0));
    assert_eq!(turns_and_moment(&job), (5, 3));
    let after = done(&job).charge_file.unwrap();
    assert_eq!(after, Job::charge_file(&job.file));
    assert_eq!(page_bytes(&job), [0]);
    for page_count in [1, 2, 256] {
        assert_eq!(
            only_answer(&insert_beside([5, 6], page_count, 3)),
            (Code::NoDepth, 0),
            "pages do not help, and none are asked for"
        );
    }
}

#[test]
fn f_insert_1_already_there_though_full() {
    let job = insert_into_full(2, 1);
    assert_eq!(only_answer(&job), (Code::AlreadyThere, 10));
    assert_eq!(page_bytes(&job), [0]);
}

#[test]
fn g_job_e_cut_to_seven_turns() {
    let mut job = job_e();
    job.turns.truncate(7);
    let contents = done(&job);
    assert_eq!(contents.log, []);
    assert_eq!(contents.under_way, 2);
    assert_eq!(contents.charge_file, None);
    assert!(contents.answers.iter().all(|a| a.code == Code::NotYet));
    let turns: Vec<usize> = contents.answers.iter().map(|a| a.turns).collect();
    assert_eq!(turns, [6, 1, 0, 0]);
    assert_eq!(page_bytes(&job), [0; 4]);
}

#[test]
fn h_no_turns_gives_the_file_that_came_in() {
    let mut job = job_e();
    job.turns.clear();
    let contents = done(&job);
    assert_eq!(contents.under_way, 0);
    assert_eq!(contents.charge_file, Some(Job::charge_file(&job.file)));
    assert_eq!(page_bytes(&job), [0; 4]);
}

/// "Job version is 2; version 1 gives refusal 2."
#[test]
fn version_1_is_refused_two() {
    let job = job_e().to_bytes();
    assert_eq!(job[..2], [2, 0]);
    for version in (0..=u16::MAX).filter(|version| *version != 2) {
        let mut other = job.clone();
        other[..2].copy_from_slice(&version.to_le_bytes());
        assert_eq!(check(&other), Some((2, 0)));
    }
    let version_1 = [&[1, 0], &job[2..]].concat();
    assert_eq!(report(&version_1), b"refused 2 0\n");
}

#[test]
fn i_depth_nine_is_refused_three() {
    let mut job = job_e().to_bytes();
    job[2] = 9;
    assert_eq!(check(&job), Some((3, 2)));
    assert_eq!(report(&job), b"refused 3 2\n");
}

#[test]
fn i_depth_eight_is_not() {
    let job = Job {
        file: one_page(8, 2, &[(2, 50), (3, 70)]),
        ..job_e()
    };
    let bytes = job.to_bytes();
    assert_eq!(bytes[2], 8);
    assert_eq!(check(&bytes), None);
    assert!(text(&job).starts_with("job depth 8 "));
}

#[test]
fn j_a_turn_naming_m_is_refused_ten() {
    for at in 0..20 {
        let mut job = job_e();
        job.turns[at] = 4;
        let place = 156 - 40 + 2 * at as u32;
        assert_eq!(check(&job.to_bytes()), Some((10, place)));
        assert_eq!(text(&job), format!("refused 10 {place}\n"));
    }
}

#[test]
fn j_a_turn_naming_the_last_operation_is_not() {
    for at in 0..20 {
        let mut job = job_e();
        job.turns[at] = 3;
        assert_eq!(check(&job.to_bytes()), None);
        assert!(text(&job).starts_with("job depth 1 "));
    }
}

/// The result of job E byte by byte, so that reader and writer of results
/// cannot be wrong in the same way.
#[test]
fn job_e_result_bytes() {
    let job = job_e();
    let Outcome::Done { result } = run(&job.to_bytes(), 148, 4, 24_576) else {
        panic!("job E is run");
    };
    let mut wanted: Vec<u8> = vec![2, 0, 4, 0, 4, 0, 0, 0];
    wanted.extend([24, 0, 0, 0, 56, 0, 0, 0, 72, 0, 0, 0, 148, 0, 0, 0]);
    wanted.extend([3, 0, 9, 0, 90, 0, 0, 0]);
    wanted.extend([1, 0, 2, 0, 70, 0, 0, 0]);
    wanted.extend([5, 1, 6, 0, 70, 0, 0, 0]);
    wanted.extend([2, 1, 3, 0, 0, 0, 0, 0]);
    wanted.extend([6, 0, 1, 0, 12, 0, 2, 0, 15, 0, 3, 0, 18, 0, 0, 0]);
    wanted.extend([2, 0, 1, 2, 2, 0, 2, 0, 0, 0, 0, 0, 32, 0, 0, 0]);
    wanted.extend([36, 0, 0, 0, 76, 0, 0, 0, 76, 0, 0, 0, 76, 0, 0, 0]);
    wanted.extend([1, 0, 2, 0]);
    wanted.extend([1, 1, 0, 0, 4, 0, 0, 0, 90, 0, 0, 0, 0, 0, 0, 0, 0, 0, 0, 0]);
    wanted.extend([1, 1, 1, 0, 2, 0, 0, 0, 50, 0, 0, 0, 0, 0, 0, 0, 0, 0, 0, 0]);
    assert_eq!(result, wanted);
}
