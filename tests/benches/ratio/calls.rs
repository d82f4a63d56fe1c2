//! The calls that are timed: check, run, tidying, dealing and pricing, of the library and of the rival.

use std::hint::black_box;
use std::time::Instant;

use chargefile_tests::check::WORKING_MEMORY;
use rival::Row;

use crate::linked;

/// The longest that an output must be lent: that of dealing, for the longest job without turns.
const OUTPUT: usize = 40_988;
const ROWS: usize = 256;

#[derive(Clone, Copy)]
pub enum Program {
    Library,
    Rival,
}

#[derive(Clone, Copy)]
pub enum Call {
    Check,
    Run,
    /// At this depth.
    Tidy(u64),
    Deal,
    /// A tariff of so many bytes stands before the switch's log.
    Price(usize),
}

/// What both are lent, enough for every job. Each has its own: neither finds in the cache what the other has written. Nothing is cleared between
/// runs, since a run leaves memory and rows zero by itself, and so does dealing. A tidied file goes to the result buffer, and so do a job with its turns and
/// the inserts of a log; for a long log it is made longer.
pub struct Lent {
    library: linked::Lent,
    result: Vec<u8>,
    rows: Vec<Row>,
    memory: Vec<u8>,
}

impl Lent {
    pub fn new() -> Lent {
        Lent {
            library: linked::Lent::new(OUTPUT, ROWS, WORKING_MEMORY),
            result: vec![0; OUTPUT],
            rows: vec![Row::default(); ROWS],
            memory: vec![0; WORKING_MEMORY],
        }
    }

    /// Asserts that both accept the job, or tidy the charge file, or deal turns, or price the log, and come to the same bytes.
    pub fn agree(&mut self, call: Call, job: &[u8]) {
        match call {
            Call::Check | Call::Run => self.agree_run(job),
            Call::Tidy(depth) => self.agree_tidy(job, depth),
            Call::Deal => self.agree_deal(job),
            Call::Price(tariff) => self.agree_price(job.split_at(tariff)),
        }
    }

    fn agree_run(&mut self, job: &[u8]) {
        assert_eq!(linked::check(job), None);
        assert_eq!(rival_check(job), Ok(()));
        let result = linked::run(job, &mut self.library).expect("accepted, and enough is lent");
        assert_eq!(self.rival_run(job), Ok(result.len()));
        assert!(self.result[..result.len()] == result, "they differ");
    }

    fn agree_tidy(&mut self, file: &[u8], depth: u64) {
        let told = linked::tidy_only(file, depth, &mut self.library.result);
        assert_eq!(told.refusal, 0, "it is tidied");
        let length = told.length as usize;
        assert_eq!(self.rival_tidy(file, depth), Ok(length));
        let same = self.result[..length] == self.library.result[..length];
        assert!(same, "they differ");
    }

    fn agree_deal(&mut self, job: &[u8]) {
        let told = linked::deal_only(job, &mut self.library);
        assert_eq!(told.refusal, 0, "it is dealt turns");
        let length = told.length as usize;
        assert_eq!(self.rival_deal(job), Ok(length));
        let same = self.result[..length] == self.library.result[..length];
        assert!(same, "they differ");
    }

    fn agree_price(&mut self, (tariff, log): (&[u8], &[u8])) {
        let room = OUTPUT.max(log.len());
        self.library.result.resize(room, 0);
        self.result.resize(room, 0);
        let told = linked::price_only(tariff, log, &mut self.library.result);
        assert_eq!(told.refusal, 0, "it is priced");
        let length = told.length as usize;
        assert_eq!(self.rival_price(tariff, log), Ok(length));
        let same = self.result[..length] == self.library.result[..length];
        assert!(same, "they differ");
    }

    /// What one of so many calls in a row takes, in nanoseconds.
    pub fn time(&mut self, program: Program, call: Call, job: &[u8], times: u32) -> f64 {
        match (program, call) {
            (Program::Library, Call::Check) => nanoseconds(times, || {
                black_box(linked::check_only(black_box(job)));
            }),
            (Program::Rival, Call::Check) => nanoseconds(times, || {
                black_box(rival_check(black_box(job))).ok();
            }),
            (Program::Library, Call::Run) => nanoseconds(times, || {
                black_box(linked::run_only(black_box(job), &mut self.library));
            }),
            (Program::Rival, Call::Run) => nanoseconds(times, || {
                black_box(self.rival_run(black_box(job))).ok();
            }),
            (Program::Library, Call::Tidy(depth)) => nanoseconds(times, || {
                let out = &mut self.library.result;
                black_box(linked::tidy_only(black_box(job), depth, out));
            }),
            (Program::Rival, Call::Tidy(depth)) => nanoseconds(times, || {
                black_box(self.rival_tidy(black_box(job), depth)).ok();
            }),
            (Program::Library, Call::Deal) => nanoseconds(times, || {
                black_box(linked::deal_only(black_box(job), &mut self.library));
            }),
            (Program::Rival, Call::Deal) => nanoseconds(times, || {
                black_box(self.rival_deal(black_box(job))).ok();
            }),
            (Program::Library, Call::Price(tariff)) => nanoseconds(times, || {
                let (tariff, log) = black_box(job).split_at(tariff);
                black_box(linked::price_only(tariff, log, &mut self.library.result));
            }),
            (Program::Rival, Call::Price(tariff)) => nanoseconds(times, || {
                let (tariff, log) = black_box(job).split_at(tariff);
                black_box(self.rival_price(tariff, log)).ok();
            }),
        }
    }

    /// Not inlined, since the library's call is not either.
    #[inline(never)]
    fn rival_run(&mut self, job: &[u8]) -> Result<usize, rival::Refusal> {
        rival::run(job, &mut self.result, &mut self.rows, &mut self.memory)
    }

    #[inline(never)]
    fn rival_tidy(&mut self, file: &[u8], depth: u64) -> Result<usize, rival::Refusal> {
        rival::tidy(file, depth, &mut self.result)
    }

    #[inline(never)]
    fn rival_deal(&mut self, job: &[u8]) -> Result<usize, rival::Refusal> {
        rival::deal(job, &mut self.result, &mut self.rows, &mut self.memory)
    }

    #[inline(never)]
    fn rival_price(&mut self, tariff: &[u8], log: &[u8]) -> Result<usize, rival::Refusal> {
        rival::price(tariff, log, &mut self.result)
    }
}

#[inline(never)]
fn rival_check(job: &[u8]) -> Result<(), rival::Refusal> {
    rival::check(job)
}

fn nanoseconds(times: u32, mut call: impl FnMut()) -> f64 {
    let start = Instant::now();
    for _ in 0..times {
        call();
    }
    start.elapsed().as_nanos() as f64 / f64::from(times)
}
