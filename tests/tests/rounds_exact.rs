//! "Let a round be a list in which every operation unfinished at its start has at least one turn. In an accepted job with m operations and depth g,
//! m × (2^g + 4g + 6) rounds finish them all."
//!
//! Here it is not tried with some rounds but with all that there are, for jobs of up to three operations: how many can be needed, exactly.

mod every_round;

use chargefile_tests::bounds::{reached, said};
use chargefile_tests::by_hand::{delete, delete_at, insert, search};
use chargefile_tests::examples_parts::filled;
use chargefile_tests::file::ChargeFile;
use chargefile_tests::job::{Job, Kind, Operation};
use chargefile_tests::key;
use chargefile_tests::make;
use chargefile_tests::random::Random;
use chargefile_tests::rounds::{deal_rounds, enough, most_used, DEALERS};
use chargefile_tests::run::Run;
use chargefile_tests::seeds::few_seeds;
use every_round::{most_rounds, Most};

/// By depth, 0 to 2, and operations, 1 to 3: the most rounds that any sequence of rounds needs in the jobs below; the most turns that so many inserts
/// use together; and what is said to be enough.
const NEEDED: [[(usize, usize, usize); 3]; 3] = [
    [(6, 6, 7), (11, 12, 14), (16, 18, 21)],
    [(9, 9, 12), (17, 18, 24), (22, 27, 36)],
    [(12, 12, 18), (21, 24, 36), (29, 36, 54)],
];

/// A file of one page, full of calls with this entry, and operations that want this page: among them inserts that split it once, or as often as can be,
/// and move the calls of others to new pages. They come to each answer that there is but `no page`.
fn file_and_operations(depth: u32, capacity: usize, entry: u32) -> (ChargeFile, Vec<Operation>) {
    let like_these = |rest: u32| key::call_with(entry, depth, rest);
    let held: Vec<u32> = (1..=capacity as u32).map(like_these).collect();
    let records: Vec<(u32, u32)> = held.iter().map(|call| (*call, 50)).collect();
    let missing = like_these(100);
    let mut operations = vec![
        search(held[0]),
        search(missing),
        delete(held[0]),
        delete_at(held[0], 1),
        insert(held[0], 1),
        insert(missing, 1),
    ];
    for shared in 0..depth {
        operations.push(insert(key::neighbour(held[0], shared), 2));
    }
    if depth > 0 {
        operations.push(insert(key::neighbour(missing, 0), 3));
    }
    let page_count = 4;
    let file = filled(ChargeFile::empty(depth, capacity, page_count), &records);
    (file, operations)
}

/// All jobs with such a file and one to three of its operations, the same one more than once too. Which has which number does not matter: rounds come
/// in every order.
fn small_jobs(depth: u32, capacity: usize, entry: u32) -> Vec<Job> {
    let (file, operations) = file_and_operations(depth, capacity, entry);
    let mut chosen: Vec<Vec<usize>> = Vec::new();
    for one in 0..operations.len() {
        chosen.push(vec![one]);
        for two in one..operations.len() {
            chosen.push(vec![one, two]);
            chosen.extend((two..operations.len()).map(|three| vec![one, two, three]));
        }
    }
    let job = |chosen: &Vec<usize>| Job {
        file: file.clone(),
        operations: chosen.iter().map(|i| operations[*i]).collect(),
        turns: Vec::new(),
    };
    chosen.iter().map(job).collect()
}

/// No sequence of rounds needs more than is said, nor than the turns that all operations can use together; a search is finished after 2g + 3 rounds,
/// whatever the others do. No dealer finds a longer sequence. Gives back the most, and whether some dealer needs as many.
fn held_to_all_rounds(job: &Job) -> (Most, bool) {
    let most = most_rounds(job, Run::deal).expect("somebody can use a turn");
    assert!(most.often <= enough(job), "{most:?} in {job:?}");
    assert!(most.often <= most_used(job), "{most:?} in {job:?}");
    assert!(most.once <= most.often);
    // all are finished when the last one is
    assert_eq!(
        most.each.iter().copied().max(),
        (!most.each.is_empty()).then_some(most.often)
    );
    for rounds in searches(job, &most) {
        assert!(rounds <= said(Kind::Search, job.file.depth), "{job:?}");
    }
    let rounds = |dealer| deal_rounds(job, dealer, Run::deal).unwrap().rounds;
    let dealt = DEALERS.map(rounds);
    assert!(
        dealt.iter().all(|rounds| *rounds <= most.often),
        "{dealt:?}"
    );
    let as_many = dealt.contains(&most.often);
    (most, as_many)
}

/// The most rounds until each of the searches is finished.
fn searches<'a>(job: &'a Job, most: &'a Most) -> impl Iterator<Item = usize> + 'a {
    let each = job.operations.iter().zip(&most.each);
    let searches = each.filter(|(operation, _)| operation.kind == Kind::Search);
    searches.map(|(_, rounds)| *rounds)
}

/// In none of these jobs does it take more rounds if they may name an operation more than once.
#[test]
fn the_most_rounds_of_small_jobs() {
    let (mut jobs, mut found, mut states) = (0, 0, 0);
    for (depth, needed) in (0..).zip(NEEDED) {
        let (mut longest, mut search) = ([0; 3], 0);
        let entries = 0..1 << depth;
        let each = entries.flat_map(|entry| [1, 2].map(|capacity| (capacity, entry)));
        for job in each.flat_map(|(capacity, entry)| small_jobs(depth, capacity, entry)) {
            let (most, as_many) = held_to_all_rounds(&job);
            assert_eq!(most.once, most.often, "{job:?}");
            let longest = &mut longest[job.operations.len() - 1];
            *longest = most.often.max(*longest);
            search = searches(&job, &most).fold(search, usize::max);
            jobs += 1;
            found += usize::from(as_many);
            states += most.states;
        }
        assert_eq!(longest, needed.map(|(most, _, _)| most), "depth {depth}");
        assert_eq!(search, said(Kind::Search, depth), "depth {depth}");
    }
    println!("{jobs} jobs, {states} states; in {found} a dealer needs the most");
    assert_eq!(jobs, 2_574);
    assert!(states > 200_000 && 3 * found > 2 * jobs);
}

/// The other two numbers of the table.
#[test]
fn the_table_by_hand() {
    for (depth, needed) in (0..).zip(NEEDED) {
        let (file, _) = file_and_operations(depth, 1, 0);
        for (count, (most, used, promised)) in (1..).zip(needed) {
            let job = Job {
                file: file.clone(),
                operations: vec![insert(7, 1); count],
                turns: Vec::new(),
            };
            assert_eq!((most_used(&job), enough(&job)), (used, promised));
            assert_eq!(used, count * reached(Kind::Insert, depth));
            assert!(most <= used);
        }
    }
}

/// The same for jobs of chance, with up to three operations.
#[test]
fn the_most_rounds_of_random_jobs() {
    let (mut jobs, mut most_needed) = (0, 0);
    let whole = few_seeds(1_500, |seed| {
        let mut job = make::small_job(&mut Random::new(seed, "every round"));
        job.operations.truncate(3);
        if job.file.depth <= 3 {
            let (most, _) = held_to_all_rounds(&job);
            jobs += 1;
            most_needed = most.often.max(most_needed);
        }
    });
    println!("{jobs} jobs, {most_needed} rounds");
    if whole {
        assert!(jobs > 300 && most_needed > 15, "{jobs} {most_needed}");
    }
}
