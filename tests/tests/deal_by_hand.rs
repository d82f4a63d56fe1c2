//! Lists of turns dealt by hand ("Turns dealt for the site"), what the runs of these lists tell, and the bytes.
//!
//! `dealt/scenes.rs` has the jobs with their lists.

mod dealt;

use chargefile_tests::by_hand::{
    self, insert, search, ABSENT, ALREADY_THERE, DELETED, DIFFERS, FOUND, NONE, NO_DEPTH, STORED,
};
use chargefile_tests::deal::{at_most, least_lent, list, MORE, MOST_TURNS};
use chargefile_tests::examples::example;
use chargefile_tests::job::{Job, MAX_OPERATIONS, MAX_TURNS};
use chargefile_tests::make_rounds::hotel_of_forty;
use chargefile_tests::{check, deal, report, Outcome};
use dealt::scenes::{scene_of, scenes};
use dealt::{judged, rounds};

#[test]
fn every_list_by_hand() {
    for scene in scenes() {
        assert_eq!(list(&scene.job), scene.list, "{}", scene.name);
    }
}

/// The list by hand is right, and the only one: what asks after each operation of each round finds nothing wrong with it.
#[test]
fn every_list_by_hand_is_judged_right() {
    for scene in scenes() {
        let run = judged(&scene.job, &scene.list);
        let run = run.unwrap_or_else(|wrong| panic!("{}: {wrong:?}", scene.name));
        assert_eq!((run.waits, run.idle, run.now), (0, 0, scene.list.len()));
    }
}

/// Code and page byte of each answer, and the turns used, when the list is run.
fn answers(name: &str) -> Vec<(u8, u8, usize)> {
    let job = scene_of(name).job;
    let turns: Vec<(usize, usize)> = list(&job).into_iter().map(|turn| (turn, 1)).collect();
    let told = by_hand::told(&job.file, &job.operations, &turns);
    assert_eq!(told.under_way, 0);
    assert!(told.file.is_some(), "a charge file");
    let of = |answer: &by_hand::AnswerBytes| (answer.0, answer.1, answer.2);
    told.answers.iter().map(of).collect()
}

#[test]
fn the_answers_by_hand() {
    assert_eq!(answers("no operations"), []);
    assert_eq!(
        answers("searches only"),
        [(FOUND, 0, 2), (NONE, 0, 3), (FOUND, 0, 2)]
    );
    assert_eq!(
        answers("two deletes of one call"),
        [(DELETED, 0, 6), (ABSENT, 0, 5)]
    );
    assert_eq!(
        answers("nothing to write"),
        [
            (ALREADY_THERE, 0, 5),
            (NO_DEPTH, 0, 5),
            (DIFFERS, 0, 5),
            (ABSENT, 0, 5)
        ]
    );
    assert_eq!(
        answers("a split and three who wait"),
        [
            (STORED, 0, 9),
            (DELETED, 1, 9),
            (STORED, 0, 6),
            (DELETED, 1, 9)
        ]
    );
}

/// Both have a slip for call 1. The later one is there first, and its charge is stored.
#[test]
fn the_higher_one_is_first() {
    let name = "a lower one waits for a higher";
    assert_eq!(
        answers(name),
        [
            (STORED, 1, 10),
            (STORED, 2, 12),
            (ALREADY_THERE, 2, 11),
            (DELETED, 1, 9),
            (STORED, 2, 9)
        ]
    );
    let job = scene_of(name).job;
    let turns: Vec<(usize, usize)> = list(&job).into_iter().map(|turn| (turn, 1)).collect();
    let charges = by_hand::told(&job.file, &job.operations, &turns).answers;
    assert_eq!((charges[2].3, charges[4].3), (40, 40));
}

/// What `chargelog` prints of job E with the turns that are dealt for it. Both searches find call 3: when they read page 1, no operation has written
/// anything.
#[test]
fn job_e_printed() {
    let text = "job depth 1 capacity 2 pages 2 operations 4 turns 22\n\
                op 0 insert 4 stored 90 turns 9\n\
                op 1 search 3 found 70 turns 2\n\
                op 2 delete 3 deleted 70 turns 9\n\
                op 3 search 3 found 70 turns 2\n\
                at 5 op 1\n\
                at 6 op 3\n\
                at 12 op 0\n\
                at 20 op 2\n\
                page 1 depth 1 pattern 0 : 4=90\n\
                page 2 depth 1 pattern 1 : 2=50\n";
    let scene = scene_of("job E");
    let printed = report(&scene.job.with_list(&scene.list).to_bytes());
    assert_eq!(String::from_utf8(printed).unwrap(), text);
}

/// Byte for byte: g 0, c 1, P 1, an empty page and one search, which uses 3 turns.
#[test]
fn the_bytes_of_a_dealt_job() {
    let head = |turns: u8, total: u8| {
        [
            // version 2, g 0, c 1, P 1, U 1, one operation, so many turns
            &[2, 0, 0, 1, 1, 0, 1, 0, 1, 0, turns, 0][..],
            // the directory at 32, the page table at 34, the operations at 46, the turns at 56
            &[32, 0, 0, 0, 34, 0, 0, 0, 46, 0, 0, 0, 56, 0, 0, 0],
            &[total, 0, 0, 0],
            // the entry, the page, the search for call 258
            &[1, 0],
            &[0; 12],
            &[1, 0, 2, 1, 0, 0, 0, 0, 0, 0],
        ]
        .concat()
    };
    let job = head(0, 56);
    let wanted = [head(3, 62), vec![0; 6]].concat();
    let done = Outcome::Done { result: wanted };
    assert_eq!(deal(&job, (56 + 20_476, 1, 24_576)), done);
}

/// A turn's number has its low byte first, and the count of 300 turns too: a hundred searches that find nothing.
#[test]
fn numbers_over_255() {
    let operations = vec![search(3); 100];
    let job = by_hand::job(&by_hand::one_page(&[]), &operations, &[]);
    let bytes = job.to_bytes();
    let Outcome::Done { result } = deal(&bytes, least_lent(&bytes, 100)) else {
        panic!("it is dealt turns");
    };
    // 300 is 1 and 44; the job is 32 + 4 + 40 + 1,000 bytes long, and 1,676 is 6 and 140
    assert_eq!(bytes.len(), 1_076);
    assert_eq!(result[10..12], [44, 1]);
    assert_eq!(result[28..32], [140, 6, 0, 0]);
    assert_eq!(result[1_076..1_080], [0, 0, 1, 0]);
    assert_eq!(result[1_672..], [98, 0, 99, 0]);
}

/// Room for the longest list, which every job can carry.
#[test]
fn the_numbers() {
    assert_eq!((MOST_TURNS, MORE), (10_238, 20_476));
    assert_eq!(MORE, 2 * MOST_TURNS);
    assert_eq!(at_most(MAX_OPERATIONS, 8), 256 * 30 + 255 + 255 + 2_048);
    assert_eq!(at_most(MAX_OPERATIONS, 8), MOST_TURNS);
    assert_eq!(MAX_TURNS.checked_sub(MOST_TURNS), Some(6_146));
}

/// The examples without their turns: how many turns are dealt, in how many rounds.
#[test]
fn the_examples() {
    let dealt = |name: &str| {
        let job = example(name).job.with_list(&[]);
        let list = list(&job);
        assert!(judged(&job, &list).is_ok(), "{name}");
        (list.len(), rounds(&list).len())
    };
    assert_eq!(dealt("blank"), (0, 0));
    assert_eq!(dealt("job-e"), (22, 16));
    assert_eq!(dealt("school"), (24, 17));
    assert_eq!(dealt("hotel"), (55, 24));
    assert_eq!(dealt("forty"), (239, 58));
    assert_eq!(dealt("month"), (1_795, 34));
    assert_eq!(list(&hotel_of_forty()).len(), 239);
}

/// The job's own refusal, then 21, then 11 with its places in their order; each is told as long as those before it are not.
#[test]
fn refused_by_hand() {
    let refused = |number, place| Outcome::Refused { number, place };
    let job = |turns: &[usize]| Job {
        turns: turns.to_vec(),
        ..scene_of("job E").job
    };
    let with_turns = job(&[0, 4]).to_bytes();
    assert_eq!(deal(&with_turns, (0, 0, 0)), refused(10, 118));
    let with_turns = job(&[0, 3]).to_bytes();
    assert_eq!(deal(&with_turns, (0, 0, 0)), refused(21, 10));
    assert_eq!(deal(&with_turns, (60_000, 256, 24_576)), refused(21, 10));
    let bytes = job(&[]).to_bytes();
    assert_eq!(bytes.len(), 116);
    assert_eq!(check(&bytes), None);
    assert_eq!(deal(&bytes, (20_591, 0, 0)), refused(11, 0));
    assert_eq!(deal(&bytes, (20_592, 3, 0)), refused(11, 1));
    assert_eq!(deal(&bytes, (20_592, 4, 24_575)), refused(11, 2));
    assert!(matches!(
        deal(&bytes, (20_592, 4, 24_576)),
        Outcome::Done { .. }
    ));
    assert_eq!(deal(&bytes[..31], (0, 0, 0)), refused(1, 31));
}

/// A charge file needs no row, but as much of the rest as a job with operations; it comes out as it is.
#[test]
fn no_operations() {
    let bytes = scene_of("no operations").job.to_bytes();
    let length = bytes.len();
    let refused = |place| Outcome::Refused { number: 11, place };
    assert_eq!(deal(&bytes, (length + 20_475, 0, 24_576)), refused(0));
    assert_eq!(deal(&bytes, (length, 0, 24_576)), refused(0));
    assert_eq!(deal(&bytes, (length + 20_476, 0, 24_575)), refused(2));
    let done = Outcome::Done {
        result: bytes.clone(),
    };
    assert_eq!(deal(&bytes, (length + 20_476, 0, 24_576)), done);
}

/// An insert of a job is not there for its searches: they all read their pages in the second round, and nobody writes a page before the fifth.
#[test]
fn a_search_does_not_see_what_the_job_stores() {
    let operations = [insert(2, 50), search(2), search(2)];
    let job = by_hand::job(&by_hand::one_page(&[]), &operations, &[]);
    let dealt = list(&job);
    assert_eq!(dealt, [0, 1, 2, 0, 1, 2, 0, 1, 2, 0, 0, 0]);
    let turns: Vec<(usize, usize)> = dealt.into_iter().map(|turn| (turn, 1)).collect();
    let told = by_hand::told(&job.file, &job.operations, &turns);
    let codes: Vec<u8> = told.answers.iter().map(|answer| answer.0).collect();
    assert_eq!(codes, [STORED, NONE, NONE]);
}

/// The boarding school's job: at lights out two operations were under way, and one was not begun.
#[test]
fn the_school_misses_nothing() {
    let [school, evening, dealt] = ["school", "evening", "dealt"].map(|name| example(name).job);
    assert_eq!(evening.with_list(&school.turns), school);
    assert_eq!(evening.with_list(&dealt.turns), dealt);
    assert_eq!((evening.turns.len(), dealt.turns.len()), (0, 24));
    let run = judged(&evening, &dealt.turns).expect("the list as it is said");
    let answers = run.answers();
    let codes: Vec<u8> = answers.iter().map(|answer| answer.code as u8).collect();
    assert_eq!(codes, [FOUND, STORED, DELETED, NONE]);
}
