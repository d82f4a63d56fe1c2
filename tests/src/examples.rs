//! The jobs of examples/: each a small story, told as a file, its operations
//! and its turns. `cargo run --bin write_examples -- FOLDER` writes them.

use std::collections::BTreeSet;

use crate::by_hand::{delete, delete_at, insert, search};
use crate::deal;
use crate::examples_parts::{brimful, even_file, filled, parted_file, rounds};
use crate::examples_priced::{inn, priced};
use crate::examples_refused::{exchanged, leftover, misfiled, wide};
use crate::job::{Job, MAX_CAPACITY, MAX_DEPTH, MAX_OPERATIONS, MAX_PAGES, MAX_TURNS};
use crate::make_rounds::hotel_of_forty;

/// A job with its name: examples/NAME.job has its bytes.
pub struct Example {
    pub name: &'static str,
    pub job: Job,
    /// A place and the byte that is written there, for a fault that no [`Job`]
    /// can have: it counts a page's records, and writes zeros behind the last.
    pub edit: Option<(usize, u8)>,
}

impl Example {
    /// The bytes of examples/NAME.job.
    pub fn bytes(&self) -> Vec<u8> {
        let mut bytes = self.job.to_bytes();
        if let Some((place, byte)) = self.edit {
            bytes[place] = byte;
        }
        bytes
    }
}

/// All of them, the small ones first.
pub fn examples() -> Vec<Example> {
    let edited = |name, job, edit| Example { name, job, edit };
    let example = |name, job| edited(name, job, None);
    vec![
        example("blank", blank()),
        example("job-e", job_e()),
        example("april", april()),
        example("hotel", hotel()),
        example("school", school()),
        example("evening", evening()),
        example("dealt", dealt()),
        example("inn", inn()),
        example("priced", priced()),
        example("stale", stale()),
        example("late", late()),
        example("bursars", bursars()),
        example("cards", cards()),
        example("thin", thin()),
        example("tidied", tidied()),
        example("misfiled", misfiled()),
        example("exchanged", exchanged()),
        example("wide", wide()),
        // Page 1 stands at 36, and its count one behind: two records, not three.
        edited("leftover", leftover(), Some((37, 2))),
        example("forty", forty()),
        example("month", month()),
    ]
}

/// The one of this name.
pub fn example(name: &str) -> Example {
    let named = |example: &Example| example.name == name;
    let found = examples().into_iter().find(named);
    found.expect("an example of this name")
}

/// The smallest job: one empty page, nothing to do.
fn blank() -> Job {
    Job {
        file: even_file(0, 1, 1, 0),
        operations: vec![],
        turns: vec![],
    }
}

/// Job E of the document.
fn job_e() -> Job {
    Job {
        file: filled(even_file(1, 2, 2, 0), &[(2, 50), (3, 70)]),
        operations: vec![insert(4, 90), search(3), delete(3), search(3)],
        turns: vec![1, 0, 0, 0, 0, 0, 0, 0, 2, 2, 2, 2, 2, 2, 3, 3, 3, 1, 0, 0],
    }
}

/// The month after job E: the file that it leaves, and what examples/april.ops
/// says. `.ci/months` holds the job that is made of the two to this one.
fn april() -> Job {
    let turns = [
        // Insert 5 has the turns to itself, and page 2 is full.
        rounds(&[0], 6),
        // Delete 2 locks page 2, insert 6 waits for it, and search 2 reads it
        // before the delete writes it. Insert 7 has page 1 to itself.
        rounds(&[1, 2, 3, 4], 10),
    ];
    Job {
        file: filled(even_file(1, 2, 2, 1), &[(2, 50), (4, 90)]),
        operations: vec![
            insert(5, 30),
            delete(2),
            insert(6, 40),
            insert(7, 25),
            search(2),
        ],
        turns: turns.concat(),
    }
}

/// Guests' calls contend for one page. Page 1 has pattern 0 and is full, page 2
/// has pattern 1 and is full too; two pages are left.
fn hotel() -> Job {
    let calls = [(36, 35), (40, 20), (41, 45), (42, 120), (43, 60), (44, 10)];
    let turns = [
        // Insert 55 locks page 1. The next three read their entries: page 1.
        &[0, 0, 1, 2, 3][..],
        // It decides to split the page; insert 49 and delete 42 must wait.
        &[0, 0, 1, 2],
        // It writes page 3. The search reads page 1, locked or not.
        &[0, 3],
        // Entries 2 and 3, the new page unlocked, the old page written. The
        // two still wait.
        &[0, 0, 0, 0, 1, 2],
        // It unlocks page 1, and delete 42 gets it; but the call's entry now
        // names page 3, so it releases page 1.
        &[0, 2, 2, 1, 2],
        // Now each has a page to itself.
        &rounds(&[1, 2], 5),
        // The four others, in step: 52 splits page 1 again and takes the last
        // page; 75 waits for it, and then no split can part its calls.
        &rounds(&[4, 5, 6, 7], 14),
    ];
    Job {
        file: filled(even_file(3, 3, 4, 1), &calls),
        operations: vec![
            insert(55, 80),
            insert(49, 25),
            delete(42),
            search(43),
            // The same slip once more.
            insert(55, 80),
            insert(52, 15),
            insert(75, 90),
            insert(47, 30),
        ],
        turns: turns.concat(),
    }
}

/// Lights out: the turns stop while an insert is splitting a page.
fn school() -> Job {
    let turns = [
        // The search finds its call and is finished.
        &[0, 0][..],
        // Insert 15 reads its entry and locks page 1; delete 12 comes too late.
        &[1, 1, 2],
        // It verifies, decides, writes the new page and entries 2 and 3. Entry
        // 3 is the call's own: from now on it is stored.
        &[1, 1, 1, 1, 1],
        // The delete waits, and nobody gets another turn.
        &[2],
    ];
    Job {
        file: filled(even_file(2, 2, 3, 0), &[(10, 75), (12, 40)]),
        operations: vec![search(10), insert(15, 55), delete(12), search(14)],
        turns: turns.concat(),
    }
}

/// The same before any turn, as it is handed in to be dealt a list; and with it.
fn evening() -> Job {
    school().with_list(&[])
}

fn dealt() -> Job {
    evening().with_list(&deal::list(&evening()))
}

/// Two searches read page 1 after their entries have left it.
fn stale() -> Job {
    let turns = [
        // Both searches read their entries: page 1.
        &[1, 2][..],
        // Insert 4 splits page 1: it reads its entry, locks, verifies, decides,
        // writes page 2, changes entry 2 on turn 7 and entry 3 on turn 8, and
        // unlocks page 2.
        &[0, 0, 0, 0, 0, 0, 0, 0],
        // Delete 3 works on page 2 from beginning to end, and a search that
        // begins after it finds nothing.
        &[3, 3, 3, 3, 3, 3],
        &[4, 4, 4],
        // Only now do the first two searches read page 1. It is not written
        // yet and still has calls 3 and 8.
        &[1, 2],
        // Insert 4 writes page 1 and unlocks it.
        &[0, 0],
    ];
    Job {
        file: filled(even_file(2, 3, 2, 0), &[(3, 30), (7, 70), (8, 80)]),
        operations: vec![insert(4, 40), search(3), search(8), delete(3), search(3)],
        turns: turns.concat(),
    }
}

/// Slips that come in late: their calls are below some that are in the file, and
/// go before them. One after another; insert 7 splits page 1, which is full.
fn late() -> Job {
    let operations = vec![insert(4, 30), insert(7, 45), insert(8, 20), insert(3, 60)];
    let turns = [vec![0; 6], vec![1; 9], vec![2; 6], vec![3; 6]];
    Job {
        file: filled(even_file(1, 3, 2, 0), &[(5, 15), (9, 80)]),
        operations,
        turns: turns.concat(),
    }
}

/// Two bursars strike out call 12, each at the charge on the sheet before them:
/// one has an old sheet. Then the call is stored again at another charge.
fn bursars() -> Job {
    let turns = [
        // Both read their entry: page 2. The old sheet locks it, the new one
        // has to wait.
        &[0, 1, 0, 1][..],
        // It verifies and decides: the charge differs. The page is still
        // locked.
        &[0, 0, 1],
        // It unlocks, and the new sheet strikes the call out.
        &[0, 1, 1, 1, 1, 1],
        // The call is charged anew, and the slip of the new sheet comes once
        // more: it waits for page 2. Delete 14 waits for page 1 in the same
        // way, behind delete 13.
        &rounds(&[2, 3, 4, 5], 9),
    ];
    Job {
        file: filled(
            even_file(1, 3, 2, 1),
            &[(11, 40), (12, 250), (13, 75), (15, 95)],
        ),
        operations: vec![
            delete_at(12, 180),
            delete_at(12, 250),
            insert(12, 270),
            delete_at(12, 250),
            // At whatever charge, and one that is not there.
            delete(13),
            delete_at(14, 60),
        ],
        turns: turns.concat(),
    }
}

/// Calls of one line card, card 5: their numbers are 5 and a multiple of 256, and
/// they go to all four pages. Then two calls with the same pseudo key, which no
/// split can part: they have a page between them.
fn cards() -> Job {
    let (one, other) = (474_790_318, 141_231_736);
    let turns = [
        // Four calls, each with a page to itself: nobody waits, and all four
        // pages are full.
        rounds(&[0, 1, 2, 3], 6),
        // The first of the two splits page 2 and takes page 5; the other waits
        // for page 2, and takes the place beside it.
        rounds(&[4, 5], 13),
        // One after another. Call 7 belongs in page 2 too, and three bits do
        // not part it from the two.
        [vec![6; 5], vec![7; 2]].concat(),
        // One of the two is struck out. The other is still there, and beside
        // it there is room for call 7.
        [vec![8; 6], vec![9; 3], vec![10; 2], vec![11; 6]].concat(),
    ];
    Job {
        file: filled(
            even_file(3, 2, 5, 2),
            &[(5, 15), (261, 40), (517, 25), (773, 60)],
        ),
        operations: vec![
            insert(1029, 35),
            insert(1285, 10),
            insert(1541, 80),
            insert(1797, 55),
            insert(one, 120),
            insert(other, 75),
            insert(7, 30),
            search(one),
            delete(one),
            search(one),
            search(other),
            insert(7, 30),
        ],
        turns: turns.concat(),
    }
}

/// The end of term: of fifteen calls in five full pages eight are struck out.
/// Pages are numbered as splits made them: 2, 3 and 4 from page 1, then 5 from 2.
fn thin() -> Job {
    let calls = [3, 4, 7, 8, 10, 11, 12, 13, 14, 15, 16, 17, 19, 20, 29];
    let calls = calls.map(|call| (call, 5 * call));
    let pages = [(3, 0b000), (2, 0b10), (2, 0b01), (3, 0b001), (2, 0b11)];
    Job {
        file: filled(parted_file(3, 3, 5, &pages), &calls),
        operations: [4, 7, 8, 13, 16, 17, 20, 29].map(delete).to_vec(),
        // Two of them for each page: the second waits until the first is done.
        turns: rounds(&[0, 1, 2, 3, 4, 5, 6, 7], 10),
    }
}

/// The month after: the file that `thin` leaves, tidied at depth 4, and what
/// examples/tidied.ops says. Pages 1, 4 and 3 have come to one; pages 2 and 5
/// have not, and 5 is 3 now. `.ci/months` holds the job that is made of the two
/// to this one.
fn tidied() -> Job {
    let calls = [3, 10, 11, 12, 14, 15, 19].map(|call| (call, 5 * call));
    Job {
        file: filled(
            parted_file(4, 3, 5, &[(1, 0b0), (2, 0b10), (2, 0b11)]),
            &calls,
        ),
        operations: vec![insert(21, 80), insert(28, 70), search(14)],
        turns: [vec![0; 10], vec![1; 9], vec![2; 2]].concat(),
    }
}

/// A hotel's forty operations at once, every one of them in turn: fifty-eight
/// rounds, the last of which finishes the last of them.
fn forty() -> Job {
    let hotel = hotel_of_forty();
    let all: Vec<usize> = (0..hotel.operations.len()).collect();
    let turns = rounds(&all, 58);
    Job { turns, ..hotel }
}

/// A whole month at the limits. 128 pages are full to the brim, so each of the
/// first 128 inserts, one for each page, splits its page, until all 256 pages are
/// in use. Then searches and deletes join them, and seven inserts that all belong
/// to entry 0, where there is room for four.
fn month() -> Job {
    let (file, mut calls) = brimful(even_file(MAX_DEPTH as u32, MAX_CAPACITY, MAX_PAGES, 7));
    let mut due: BTreeSet<usize> = (1..=128).collect();
    let next = (calls[1023] + 1..).filter(|call| due.remove(&file.page_of(*call)));
    calls.extend(next.take(128));
    let above = calls[1151] + 1;
    let of_entry_0 = (above..).filter(|call| file.entry_of(*call) == 0);
    let mut operations = Vec::new();
    operations.extend(calls[1024..].iter().map(|call| insert(*call, call - 1500)));
    // The last 53 of these calls, and 11 that nobody has made.
    operations.extend(calls[1152 - 53..].iter().map(|call| search(*call)));
    operations.extend((above..above + 11).map(search));
    // Every twenty-first of all the calls, and two that nobody has made.
    operations.extend(calls.iter().step_by(21).map(|call| delete(*call)));
    operations.extend([above, above + 1].map(delete));
    operations.extend(of_entry_0.take(7).map(|call| insert(call, 99)));
    assert_eq!(operations.len(), MAX_OPERATIONS);
    let first: Vec<usize> = (0..128).collect();
    let all: Vec<usize> = (0..MAX_OPERATIONS).collect();
    let turns = [rounds(&first, 32), rounds(&all, 48)].concat();
    assert_eq!(turns.len(), MAX_TURNS);
    Job {
        file,
        operations,
        turns,
    }
}
