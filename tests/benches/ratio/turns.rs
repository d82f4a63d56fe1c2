//! What a turn of each kind takes: a run with such turns less one without them, for each turn between. Its check, and its share of the answers and of
//! the log, are in it.

use chargefile_tests::job::{Job, Kind};
use chargefile_tests::random::Random;
use chargefile_tests::run::Run;
use chargefile_tests::turn::Turned;

use crate::calls::Call;
use crate::jobs::{held, missing, operation, rounds, without_turns, Even};
use crate::measure::difference;
use crate::table;

pub fn print() {
    for shuffled in [false, true] {
        let order = if shuffled { "shuffled" } else { "in order" };
        table::heading(&format!("A turn, dealt in rounds, each round {order}"));
        for sample in samples() {
            sample.print(shuffled);
        }
    }
}

/// Turns of a kind: so many for each operation of a job, but none for one that must not go on.
struct Sample {
    name: &'static str,
    turned: Turned,
    job: Job,
    each: usize,
    but: Option<usize>,
}

impl Sample {
    /// Turns that do their steps, up to the last of every operation.
    fn steps(name: &'static str, job: Job, each: usize) -> Sample {
        Sample {
            name,
            turned: Turned::Did,
            job,
            each,
            but: None,
        }
    }

    fn print(&self, shuffled: bool) {
        let random = &mut Random::new(1, self.name);
        let more = rounds(
            self.job.operations.len(),
            self.each,
            shuffled.then_some(random),
        );
        let mut longer = self.job.clone();
        let goes_on = |i: &usize| Some(*i) != self.but;
        longer.turns.extend(more.into_iter().filter(goes_on));
        self.assert_kind(&longer);
        let turns = longer.turns.len() - self.job.turns.len();
        let times = difference(Call::Run, &longer, &self.job).each(turns);
        table::line(&format!("{}, {turns} turns", self.name), times, 2);
    }

    /// Every turn that the job has more is of this kind.
    fn assert_kind(&self, longer: &Job) {
        let mut run = Run::new(&self.job);
        run.deal_all(&self.job.turns);
        for turn in &longer.turns[self.job.turns.len()..] {
            assert_eq!(run.deal(*turn), self.turned, "{}", self.name);
        }
    }
}

fn samples() -> [Sample; 7] {
    [
        Sample::steps("search, found", searches(0), 2),
        Sample::steps("search, none", searches(8), 3),
        Sample::steps("insert, no split", inserts(), 6),
        Sample::steps("delete", deletes(), 6),
        Sample::steps("insert, one split", splits(), 12),
        waiting(),
        finished(),
    ]
}

/// 256 searches over 32 full pages: for their records from number `first` on. From 8 on there are none, and the calls are above all that are there.
fn searches(first: u32) -> Job {
    let search = |i: u32| operation(Kind::Search, held(i % 32, 5, first + i / 32));
    without_turns(Even::large(5, 8).file(), (0..256).map(search).collect())
}

/// 256 inserts, each into a page of its own that is half full, at every place in it.
fn inserts() -> Job {
    let insert = |p| operation(Kind::Insert, missing(p, 8, p / 7 % 5));
    without_turns(Even::large(8, 4).file(), (0..256).map(insert).collect())
}

/// 256 deletes, each from a full page of its own, from every place in it.
fn deletes() -> Job {
    let delete = |p| operation(Kind::Delete, held(p, 8, p / 7 % 8));
    without_turns(Even::large(8, 8).file(), (0..256).map(delete).collect())
}

/// 32 inserts, each into a full page of its own, which is split in halves: 4 of its 8 entries change. Half of the calls stay in the old page. Each goes
/// behind 0 to 4 of the 4 records of its half.
fn splits() -> Job {
    let file = Even::large(5, 8).file_with(|p, i| held(2 * p + i % 2, 6, i / 2));
    let insert = |p: u32| operation(Kind::Insert, missing(2 * p + p % 2, 6, p / 2 % 5));
    without_turns(file, (0..32).map(insert).collect())
}

/// 200 inserts into one page: all have begun, one holds it and goes no further, so that each turn of the others waits.
fn waiting() -> Sample {
    let one_page = Even {
        depth: 0,
        pages: 1,
        ..Even::large(0, 0)
    };
    let insert = |i| operation(Kind::Insert, i);
    let mut job = without_turns(one_page.file(), (0..200).map(insert).collect());
    job.turns = (0..200).chain([0]).collect();
    Sample {
        name: "waiting",
        turned: Turned::Waited,
        job,
        each: 60,
        but: Some(0),
    }
}

/// 255 searches that are finished, and one that never begins, so that a run cannot end before its last turn.
fn finished() -> Sample {
    let mut job = searches(0);
    job.turns = (0..255).chain(0..255).collect();
    Sample {
        name: "of a finished operation",
        turned: Turned::Idle,
        job,
        each: 50,
        but: Some(255),
    }
}
