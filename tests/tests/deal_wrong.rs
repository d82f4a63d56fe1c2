//! Dealers that are wrong on purpose, each by one word of what is said: "The list is dealt in rounds, by rising operation number: each unfinished
//! operation gets one turn, and one that would only wait at that moment is passed over until the next round. It stops when all have finished."
//!
//! Each is told from the right one by small jobs, which are named (`dealt/scenes.rs`); on the others it deals the same list.

mod dealt;

use chargefile_tests::bounds::DEPTHS;
use chargefile_tests::deal::list;
use chargefile_tests::job::Job;
use chargefile_tests::make_rounds::{contended_by, contended_of_each};
use chargefile_tests::random::Random;
use chargefile_tests::run::Run;
use chargefile_tests::seeds::few_seeds;
use chargefile_tests::turn::Stage;
use dealt::scenes::{scene_of, scenes, Scene};
use dealt::{judged, Wrong};

/// A dealer under way: the run, and the list so far.
struct Dealing {
    run: Run,
    turns: Vec<usize>,
}

impl Dealing {
    fn deal(&mut self, operation: usize) {
        self.run.deal(operation);
        self.turns.push(operation);
    }

    /// Deals a turn where it would be used; gives back whether it was.
    fn deal_if_used(&mut self, operation: usize) -> bool {
        let used = self.run.can_use_a_turn(operation);
        if used {
            self.deal(operation);
        }
        used
    }

    fn unfinished(&self) -> Vec<usize> {
        self.run.unfinished().collect()
    }
}

/// Deals rounds until all have finished.
fn in_rounds(job: &Job, mut round: impl FnMut(&mut Dealing)) -> Vec<usize> {
    let (run, turns) = (Run::new(job), Vec::new());
    let mut dealing = Dealing { run, turns };
    while !dealing.unfinished().is_empty() {
        round(&mut dealing);
    }
    dealing.turns
}

/// Not one turn: two, where it can use both.
fn two_turns_each(job: &Job) -> Vec<usize> {
    in_rounds(job, |dealing| {
        for operation in dealing.unfinished() {
            if dealing.deal_if_used(operation) {
                dealing.deal_if_used(operation);
            }
        }
    })
}

/// One that would only wait is not passed over.
fn to_those_who_wait(job: &Job) -> Vec<usize> {
    in_rounds(job, |dealing| {
        for operation in dealing.unfinished() {
            dealing.deal(operation);
        }
    })
}

/// Not at that moment: at the start of the round.
fn as_at_the_start_of_the_round(job: &Job) -> Vec<usize> {
    in_rounds(job, |dealing| {
        let mut round = dealing.unfinished();
        round.retain(|operation| dealing.run.can_use_a_turn(*operation));
        for operation in round {
            dealing.deal(operation);
        }
    })
}

/// At that moment, and at the start of the round too: one that is freed in between is passed over.
fn freed_and_still_passed_over(job: &Job) -> Vec<usize> {
    in_rounds(job, |dealing| {
        let mut round = dealing.unfinished();
        round.retain(|operation| dealing.run.can_use_a_turn(*operation));
        for operation in round {
            dealing.deal_if_used(operation);
        }
    })
}

/// Not until the next round: those passed over are asked again at the end of this one.
fn caught_up_in_the_same_round(job: &Job) -> Vec<usize> {
    in_rounds(job, |dealing| {
        let mut passed_over = dealing.unfinished();
        passed_over.retain(|operation| !dealing.deal_if_used(*operation));
        for operation in passed_over {
            dealing.deal_if_used(operation);
        }
    })
}

/// By falling operation number.
fn falling(job: &Job) -> Vec<usize> {
    in_rounds(job, |dealing| {
        for operation in dealing.unfinished().into_iter().rev() {
            dealing.deal_if_used(operation);
        }
    })
}

/// No rounds: the lowest that can use a turn gets the next.
fn always_the_lowest(job: &Job) -> Vec<usize> {
    in_rounds(job, |dealing| {
        let mut unfinished = dealing.unfinished().into_iter();
        unfinished.find(|operation| dealing.deal_if_used(*operation));
    })
}

/// Not the unfinished alone: whoever would not wait.
fn to_the_finished(job: &Job) -> Vec<usize> {
    in_rounds(job, |dealing| {
        for operation in 0..job.operations.len() {
            let progress = &dealing.run.rows[operation].progress;
            if !progress.would_wait(&dealing.run.shared) {
                dealing.deal(operation);
            }
        }
    })
}

/// A search is passed over where its page is locked, though it would not wait.
fn searches_passed_over(job: &Job) -> Vec<usize> {
    in_rounds(job, |dealing| {
        for operation in dealing.unfinished() {
            let run = &dealing.run;
            match run.rows[operation].progress.stage {
                Stage::ReadPage(page) if run.shared.locked(page) => {}
                _ => {
                    dealing.deal_if_used(operation);
                }
            }
        }
    })
}

/// The last turn is missing.
fn one_turn_short(job: &Job) -> Vec<usize> {
    let mut turns = list(job);
    turns.pop();
    turns
}

/// It stops when all have an answer: who is the last to have it has not finished.
fn stops_at_the_last_answer(job: &Job) -> Vec<usize> {
    let (mut run, mut turns) = (Run::new(job), Vec::new());
    for operation in list(job) {
        if run.rows.iter().all(|row| row.progress.settled.is_some()) {
            break;
        }
        run.deal(operation);
        turns.push(operation);
    }
    turns
}

type Dealer = fn(&Job) -> Vec<usize>;

const WRONG: [Dealer; 11] = [
    two_turns_each,
    to_those_who_wait,
    as_at_the_start_of_the_round,
    freed_and_still_passed_over,
    caught_up_in_the_same_round,
    falling,
    always_the_lowest,
    to_the_finished,
    searches_passed_over,
    one_turn_short,
    stops_at_the_last_answer,
];

/// The scenes with more than one operation, and those of them in which somebody waits.
const WITH_SEVERAL: [&str; 8] = [
    "searches only",
    "two deletes of one call",
    "two pages side by side",
    "freed, and a neighbour",
    "nothing to write",
    "job E",
    "a split and three who wait",
    "a lower one waits for a higher",
];
const WITH_WAITING: [&str; 6] = [
    "two deletes of one call",
    "freed, and a neighbour",
    "nothing to write",
    "job E",
    "a split and three who wait",
    "a lower one waits for a higher",
];

/// These scenes, and no other, tell a wrong dealer from the right one; and this is wrong with its list for the first of them.
fn told_apart(wrong: Dealer, by: &[&str], how: Wrong) {
    let differs = |scene: &Scene| wrong(&scene.job) != scene.list;
    let telling: Vec<&str> = scenes()
        .iter()
        .filter(|scene| differs(scene))
        .map(|scene| scene.name)
        .collect();
    assert_eq!(telling, by);
    let first = scene_of(by[0]).job;
    assert_eq!(judged(&first, &wrong(&first)).err(), Some(how));
}

/// Turn 1 is the second of operation 0, and operation 1 has had none.
#[test]
fn two_turns_in_a_round() {
    told_apart(two_turns_each, &WITH_SEVERAL, Wrong::PassedOver(1, 1));
}

/// The first delete locks the page on turn 2; on turn 3 the second waits.
#[test]
fn a_turn_that_waits() {
    told_apart(to_those_who_wait, &WITH_WAITING, Wrong::Waits(3));
}

/// At the start of the second round no page is locked yet.
#[test]
fn waiting_as_it_was_at_the_start_of_the_round() {
    let wrong = as_at_the_start_of_the_round;
    told_apart(wrong, &WITH_WAITING, Wrong::Waits(3));
}

/// Where only two have turns left the list is the same: that the freed one has its turn in the round or in the next cannot be seen. With a neighbour
/// it can.
#[test]
fn freed_in_the_round_and_still_passed_over() {
    let telling = [
        "freed, and a neighbour",
        "a split and three who wait",
        "a lower one waits for a higher",
    ];
    let wrong = freed_and_still_passed_over;
    told_apart(wrong, &telling, Wrong::PassedOver(12, 1));
}

/// It takes an operation that waits for one of a higher number. Turn 44 is the one that operation 2 gets at the end of the round in which it was passed
/// over. The numbers do not rise there, so it is taken for a round by itself, and operation 3 has no turn in that.
#[test]
fn caught_up_in_the_same_round_and_not_in_the_next() {
    let telling = ["a lower one waits for a higher"];
    let wrong = caught_up_in_the_same_round;
    told_apart(wrong, &telling, Wrong::PassedOver(45, 3));
}

#[test]
fn by_falling_number() {
    told_apart(falling, &WITH_SEVERAL, Wrong::PassedOver(0, 0));
}

#[test]
fn no_rounds_at_all() {
    told_apart(always_the_lowest, &WITH_SEVERAL, Wrong::PassedOver(1, 1));
}

/// Where the two side by side finish, they do so in the last round.
#[test]
fn turns_of_finished_operations() {
    let telling = WITH_SEVERAL.map(|name| (name != "two pages side by side").then_some(name));
    let telling: Vec<&str> = telling.into_iter().flatten().collect();
    told_apart(to_the_finished, &telling, Wrong::Finished(6));
}

/// Only in job E does a search go for a page that is locked.
#[test]
fn a_search_that_is_passed_over() {
    told_apart(searches_passed_over, &["job E"], Wrong::PassedOver(5, 1));
}

#[test]
fn a_list_that_is_one_turn_short() {
    let mut telling = WITH_SEVERAL.to_vec();
    telling.insert(1, "one delete");
    told_apart(one_turn_short, &telling, Wrong::Unfinished(6));
}

/// A search is finished when it has its answer, and an insert or a delete is not.
#[test]
fn a_list_that_stops_at_the_last_answer() {
    let mut telling = WITH_SEVERAL.to_vec();
    telling[0] = "one delete";
    told_apart(stops_at_the_last_answer, &telling, Wrong::Unfinished(5));
}

/// Whatever a dealer deals, what asks after each round says that it is right exactly where it is the dealt list. Each wrong dealer is told apart by some.
#[test]
fn the_right_list_is_the_only_one() {
    let (mut jobs, mut told) = (0, [0; WRONG.len()]);
    let whole = few_seeds(12, |seed| {
        let random = &mut Random::new(seed, "many, and wrong dealers");
        let many = DEPTHS.map(|depth| contended_by(random, depth, 2, 24));
        let few = contended_of_each(seed, "few, and wrong dealers");
        for job in few.into_iter().chain(many) {
            let right = list(&job);
            assert!(judged(&job, &right).is_ok());
            for (wrong, told) in WRONG.into_iter().zip(&mut told) {
                let dealt = wrong(&job);
                assert_eq!(judged(&job, &dealt).is_ok(), dealt == right);
                *told += usize::from(dealt != right);
            }
            jobs += 1;
        }
    });
    if whole {
        println!("told apart by so many of {jobs}: {told:?}");
        assert!(told.iter().all(|jobs| *jobs > 0), "{told:?}");
    }
}
