//! Small jobs without turns, each with the list that is dealt for it, worked out by hand: a line for each round, or for some.
//!
//! A search that finds its call uses 2 turns, and one that finds nothing 3. An insert or a delete reads its entry, locks the page, reads the entry again,
//! decides, writes the page and unlocks it: 6 turns, and 5 where there is nothing to write. Where the entry names another page by then, it unlocks the
//! one that it holds and locks the other: 3 turns more. A split writes new pages and entries and unlocks the new pages before the old page is written.

use chargefile_tests::by_hand::{self, delete, delete_at, file, insert, one_page, search};
use chargefile_tests::file::ChargeFile;
use chargefile_tests::job::{Job, Operation};

/// A job with its name and its list.
pub struct Scene {
    pub name: &'static str,
    pub job: Job,
    pub list: Vec<usize>,
}

/// A scene; the list is told round by round.
fn scene(
    name: &'static str,
    file: &ChargeFile,
    operations: &[Operation],
    rounds: &[&[usize]],
) -> Scene {
    Scene {
        name,
        job: by_hand::job(file, operations, &[]),
        list: rounds.concat(),
    }
}

pub fn scenes() -> Vec<Scene> {
    vec![
        no_operations(),
        searches_only(),
        one_delete(),
        two_deletes_of_one_call(),
        two_pages_side_by_side(),
        freed_and_a_neighbour(),
        nothing_to_write(),
        job_e(),
        a_split_and_three_who_wait(),
        a_lower_one_waits_for_a_higher(),
    ]
}

/// The scene of this name.
pub fn scene_of(name: &str) -> Scene {
    let mut all = scenes().into_iter();
    all.find(|scene| scene.name == name).expect("a scene")
}

fn no_operations() -> Scene {
    scene("no operations", &one_page(&[(2, 50)]), &[], &[])
}

/// No search ever waits. The second finds nothing and reads its entry again.
fn searches_only() -> Scene {
    let operations = [search(2), search(3), search(2)];
    let rounds: [&[usize]; 3] = [&[0, 1, 2], &[0, 1, 2], &[1]];
    scene("searches only", &one_page(&[(2, 50)]), &operations, &rounds)
}

fn one_delete() -> Scene {
    let rounds: [&[usize]; 1] = [&[0; 6]];
    scene("one delete", &one_page(&[(2, 50)]), &[delete(2)], &rounds)
}

/// The second waits while the first has the page: from round 2, in which the first locks it, to round 6, in which the first unlocks it, and the second,
/// whose moment comes after that, locks it. It finds nothing, and there is nothing to write.
fn two_deletes_of_one_call() -> Scene {
    let operations = [delete(2), delete(2)];
    let rounds: [&[usize]; 4] = [&[0, 1], &[0, 0, 0, 0], &[0, 1], &[1, 1, 1]];
    let file = one_page(&[(2, 50)]);
    scene("two deletes of one call", &file, &operations, &rounds)
}

/// Call 4 is in page 1 and call 3 in page 2: nobody waits.
fn two_pages_side_by_side() -> Scene {
    let file = file(1, 2, &[(1, 0, &[(4, 50)]), (1, 1, &[(3, 60)])]);
    let rounds: [&[usize]; 1] = [&[0, 1, 0, 1, 0, 1, 0, 1, 0, 1, 0, 1]];
    let operations = [delete(4), delete(3)];
    scene("two pages side by side", &file, &operations, &rounds)
}

/// Operations 0 and 1 want page 1, operation 2 has page 2 to itself. In round 6 all three use a turn: 0 unlocks page 1, 1 locks it at once, 2 unlocks
/// page 2.
fn freed_and_a_neighbour() -> Scene {
    let file = file(1, 2, &[(1, 0, &[(4, 50)]), (1, 1, &[(3, 60)])]);
    let rounds: [&[usize]; 7] = [
        &[0, 1, 2],
        &[0, 2],
        &[0, 2],
        &[0, 2],
        &[0, 2],
        &[0, 1, 2],
        // call 7 is stored beside what is left of page 1, which is nothing
        &[1, 1, 1, 1],
    ];
    let operations = [delete(4), insert(7, 10), delete(3)];
    scene("freed, and a neighbour", &file, &operations, &rounds)
}

/// One page of capacity 2 that no split can part at depth 0, and each operation has only to unlock when it has decided: call 2 is there already, call 4
/// has no room, the charge of call 3 differs, and call 5 is absent. Each uses 5 turns; the next one locks in the round in which it unlocks.
fn nothing_to_write() -> Scene {
    let file = file(0, 2, &[(0, 0, &[(2, 50), (3, 60)])]);
    let operations = [insert(2, 10), insert(4, 10), delete_at(3, 10), delete(5)];
    let rounds: [&[usize]; 9] = [
        &[0, 1, 2, 3],
        &[0, 0, 0],
        &[0, 1],
        &[1, 1],
        &[1, 2],
        &[2, 2],
        &[2, 3],
        &[3, 3],
        &[3],
    ];
    scene("nothing to write", &file, &operations, &rounds)
}

/// Job E of the document without its turns.
fn job_e() -> Scene {
    let operations = [insert(4, 90), search(3), delete(3), search(3)];
    let rounds: [&[usize]; 9] = [
        // all read their entries: page 1
        &[0, 1, 2, 3],
        // 0 locks page 1; both searches find call 3 there; 2 waits
        &[0, 1, 3],
        // 0 reads its entry again and decides: the page is full, and is split
        &[0, 0],
        // it writes page 2, entry 1, and unlocks page 2
        &[0, 0, 0],
        // it writes page 1
        &[0],
        // it unlocks page 1 and is finished; 2 locks page 1
        &[0, 2],
        // the entry of call 3 is entry 1, which names page 2: 2 lets go of page 1
        &[2, 2],
        // it locks page 2, reads its entry again, decides
        &[2, 2, 2],
        // it writes page 2 and unlocks it
        &[2, 2],
    ];
    let file = one_page(&[(2, 50), (3, 70)]);
    scene("job E", &file, &operations, &rounds)
}

/// The pseudo keys of calls 1 and 2 begin with 1, those of 4 and 11 with 0. Insert 4 splits page 1, and the three others wait for it meanwhile.
fn a_split_and_three_who_wait() -> Scene {
    let operations = [insert(4, 10), delete(1), insert(11, 20), delete(2)];
    let rounds: [&[usize]; 14] = [
        &[0, 1, 2, 3],
        // 0 locks, verifies, decides, writes page 2, entry 1, unlocks page 2, writes page 1
        &[0, 0, 0, 0, 0, 0, 0],
        // 0 unlocks page 1, and 1 locks it
        &[0, 1],
        // the entry of call 1 names page 2 now
        &[1],
        // 1 unlocks page 1, and 2 locks it
        &[1, 2],
        // 1 locks page 2; 2 verifies: call 11 stays in page 1
        &[1, 2],
        // 1 verifies, 2 decides
        &[1, 2],
        // 1 decides, 2 writes page 1
        &[1, 2],
        // 1 writes page 2, 2 unlocks page 1, and 3 locks it
        &[1, 2, 3],
        // 1 unlocks page 2; the entry of call 2 names it
        &[1, 3],
        // 3 unlocks page 1, locks page 2, verifies
        &[3, 3, 3],
        // 3 decides
        &[3],
        // 3 writes page 2
        &[3],
        // 3 unlocks it
        &[3],
    ];
    let file = one_page(&[(1, 50), (2, 60)]);
    scene("a split and three who wait", &file, &operations, &rounds)
}

/// The pseudo key of call 7 begins with 01, those of 3 and 5 with 10, those of 1 and 8 with 11. Operation 0 splits page 1, and operation 1 splits page 2,
/// which comes of that. Operation 2 was under way to page 2 by then; operation 4, which has the same call, reads its entry when it names page 3 already,
/// and is there first. So 2 waits for 4: in the round in which 4 unlocks page 3 the moment of 2 has been, and it is passed over until the next.
fn a_lower_one_waits_for_a_higher() -> Scene {
    let operations = [
        insert(5, 10),
        insert(8, 20),
        insert(1, 30),
        delete(5),
        insert(1, 40),
    ];
    let file = file(2, 4, &[(0, 0, &[(3, 50), (7, 60)])]);
    let name = "a lower one waits for a higher";
    scene(name, &file, &operations, &A_LOWER_ONE_WAITS)
}

/// The list of the last scene, round by round.
const A_LOWER_ONE_WAITS: [&[usize]; 18] = [
    &[0, 1, 2, 3, 4],
    // 0 locks page 1, verifies, decides, writes page 2, entries 2 and 3, unlocks page 2, writes page 1
    &[0, 0, 0, 0, 0, 0, 0, 0],
    // 0 unlocks page 1, 1 locks it; 1 verifies; 1 unlocks it, 2 locks it
    &[0, 1],
    &[1],
    &[1, 2],
    // 1 locks page 2; the entry of 2 names page 2
    &[1, 2],
    // 1 verifies, 2 unlocks page 1, 3 locks it
    &[1, 2, 3],
    // 1 decides; 2 waits for page 2; the entry of 3 names page 2
    &[1, 3],
    // 1 writes page 3, 3 unlocks page 1, 4 locks it
    &[1, 3, 4],
    // 1 writes entry 3, and so the entry of 4 names page 3; 3 waits for page 2
    &[1, 4],
    // 1 unlocks page 3, 4 unlocks page 1
    &[1, 4],
    // 1 writes page 2, 4 locks page 3
    &[1, 4],
    // 1 unlocks page 2, 2 locks it, 4 verifies
    &[1, 2, 4],
    // the entry of 2 names page 3; 4 decides
    &[2, 4],
    // 2 unlocks page 2, 3 locks it, 4 writes page 3
    &[2, 3, 4],
    // 2 waits; 3 verifies; 4 unlocks page 3
    &[3, 4],
    // 2 locks page 3, verifies, decides; 3 decides, writes page 2, unlocks it
    &[2, 3, 2, 3, 2, 3],
    // 2 unlocks page 3
    &[2],
];
