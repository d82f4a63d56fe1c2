//! The best of many measurements. The best, since what else the machine does can only make a call slower.

use chargefile_tests::job::Job;

use crate::calls::{Call, Lent, Program};

/// How often library and rival take turns.
const ROUNDS: usize = 500;
/// How many measurements in a row for one job, so that neither always begins where the other has just filled the cache.
const IN_A_ROW: usize = 8;
/// About how long a measurement takes at least, so that the clock's own steps do not count. It is kept short: then some are not disturbed.
const NANOSECONDS: f64 = 20_000.0;

/// Nanoseconds that the library and the rival take for the same.
#[derive(Clone, Copy)]
pub struct Times {
    pub library: f64,
    pub rival: f64,
}

impl Times {
    /// No measurement yet.
    const NONE: Times = Times {
        library: f64::INFINITY,
        rival: f64::INFINITY,
    };

    fn of(&mut self, program: Program) -> &mut f64 {
        match program {
            Program::Library => &mut self.library,
            Program::Rival => &mut self.rival,
        }
    }

    fn less(self, other: Times) -> Times {
        Times {
            library: self.library - other.library,
            rival: self.rival - other.rival,
        }
    }

    /// Of one of so many.
    pub fn each(self, count: usize) -> Times {
        Times {
            library: self.library / count as f64,
            rival: self.rival / count as f64,
        }
    }
}

/// A call of one job.
pub fn best(call: Call, job: &[u8]) -> Times {
    let lent = &mut Lent::new();
    let mut best = Best::new(lent, call, job);
    for _ in 0..ROUNDS {
        best.measure(lent);
    }
    best.least
}

/// What a call takes longer for one job than for another, which are measured in turns.
pub fn difference(call: Call, longer: &Job, shorter: &Job) -> Times {
    let (longer, shorter) = (longer.to_bytes(), shorter.to_bytes());
    let lent = &mut Lent::new();
    let mut both = [&longer, &shorter].map(|job| Best::new(lent, call, job));
    for _ in 0..ROUNDS {
        for best in &mut both {
            best.measure(lent);
        }
    }
    let [longer, shorter] = both.map(|best| best.least);
    longer.less(shorter)
}

/// A call of each of some jobs, one after the other: the mean of their bests.
pub fn rotation(call: Call, jobs: &[Vec<u8>]) -> Times {
    let lent = &mut Lent::new();
    let mut all: Vec<Best> = Vec::new();
    for job in jobs {
        all.push(Best {
            times: 1,
            ..Best::new(lent, call, job)
        });
    }
    for _ in 0..ROUNDS / IN_A_ROW {
        for program in [Program::Library, Program::Rival] {
            for best in &mut all {
                best.measure_once(lent, program);
            }
        }
    }
    let sum = |of: fn(&Times) -> f64| all.iter().map(|best| of(&best.least)).sum();
    let sums = Times {
        library: sum(|times| times.library),
        rival: sum(|times| times.rival),
    };
    sums.each(jobs.len())
}

/// The least times met so far for a call of a job.
struct Best<'a> {
    call: Call,
    job: &'a [u8],
    times: u32,
    least: Times,
}

impl Best<'_> {
    /// Asserts that library and rival come to the same, and finds out how many calls make a measurement.
    fn new<'a>(lent: &mut Lent, call: Call, job: &'a [u8]) -> Best<'a> {
        lent.agree(call, job);
        let slow = lent.time(Program::Library, call, job, 1);
        Best {
            call,
            job,
            times: (NANOSECONDS / slow).clamp(1.0, 1_000.0) as u32,
            least: Times::NONE,
        }
    }

    fn measure(&mut self, lent: &mut Lent) {
        for program in [Program::Library, Program::Rival] {
            for _ in 0..IN_A_ROW {
                self.measure_once(lent, program);
            }
        }
    }

    fn measure_once(&mut self, lent: &mut Lent, program: Program) {
        let time = lent.time(program, self.call, self.job, self.times);
        let least = self.least.of(program);
        *least = least.min(time);
    }
}
