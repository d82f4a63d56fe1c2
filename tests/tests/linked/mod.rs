//! The library as it is linked: safe calls over the C entry points.
// each test program and benchmark uses its own part of these
#![allow(dead_code)]

use std::hint::black_box;

use chargefile_tests::deal::Room;
use chargefile_tests::Outcome;

/// A row of the lent table, as include/chargefile.h declares it; all 0 for an operation not begun.
#[repr(C)]
#[derive(Clone, Copy, PartialEq, Eq)]
pub struct Row {
    pub charge: u32,
    pub used: u16,
    pub moment: u16,
    pub base: u16,
    pub stage: u8,
    pub code: u8,
    pub page: u8,
    pub told: u8,
    pub count: u8,
    pub next: u8,
}

/// A row with the same number in every field.
const fn row_of(number: u8) -> Row {
    Row {
        charge: number as u32,
        used: number as u16,
        moment: number as u16,
        base: number as u16,
        stage: number,
        code: number,
        page: number,
        told: number,
        count: number,
        next: number,
    }
}

pub const NO_ROW: Row = row_of(0);

/// What a call comes to, as include/chargefile.h declares it. Refusal 0: done, and length is the output's; else its number, with place, and length 0.
#[repr(C)]
#[derive(Clone, Copy, PartialEq, Eq, Debug)]
pub struct CallOutcome {
    pub refusal: u64,
    pub place: u64,
    pub length: u64,
}

#[link(name = "chargefile", kind = "static")]
unsafe extern "C" {
    fn chargefile_check(job: *const u8, job_len: usize) -> CallOutcome;
    fn chargefile_run(
        job: *const u8,
        job_len: usize,
        result: *mut u8,
        result_len: usize,
        rows: *mut Row,
        rows_len: usize,
        memory: *mut u8,
        memory_len: usize,
    ) -> CallOutcome;
    fn chargefile_tidy(
        file: *const u8,
        file_len: usize,
        depth: u64,
        out: *mut u8,
        out_len: usize,
    ) -> CallOutcome;
    fn chargefile_deal(
        job: *const u8,
        job_len: usize,
        out: *mut u8,
        out_len: usize,
        rows: *mut Row,
        rows_len: usize,
        memory: *mut u8,
        memory_len: usize,
    ) -> CallOutcome;
    fn chargefile_price(
        tariff: *const u8,
        tariff_len: usize,
        log: *const u8,
        log_len: usize,
        out: *mut u8,
        out_len: usize,
    ) -> CallOutcome;
}

/// What a run or dealing is lent, filled with a pattern beforehand. The output of dealing goes where the result of a run does.
#[derive(Clone, PartialEq, Eq)]
pub struct Lent {
    pub result: Vec<u8>,
    pub rows: Vec<Row>,
    pub memory: Vec<u8>,
}

impl Lent {
    pub fn new(result: usize, rows: usize, memory: usize) -> Lent {
        Lent {
            result: vec![0xA5; result],
            rows: vec![row_of(0x5A); rows],
            memory: vec![0xC3; memory],
        }
    }
}

/// The check of a job.
pub fn check_only(job: &[u8]) -> CallOutcome {
    // SAFETY: the contract of `chargefile_check` asks nothing of the slice
    unsafe { chargefile_check(job.as_ptr(), job.len()) }
}

/// The refusal of a job: number and place as they were told, whole, so that a library that sets high bits is caught.
pub fn check(job: &[u8]) -> Option<(u64, u64)> {
    let told = check_only(job);
    assert_eq!(told.length, 0, "a check has no output");
    if told.refusal == 0 {
        assert_eq!(told.place, 0, "the place of a job that was accepted");
        return None;
    }
    Some((told.refusal, told.place))
}

/// The run of a job.
pub fn run_only(job: &[u8], lent: &mut Lent) -> CallOutcome {
    // SAFETY: the contract of `chargefile_run` asks nothing of the four slices
    unsafe {
        chargefile_run(
            job.as_ptr(),
            job.len(),
            lent.result.as_mut_ptr(),
            lent.result.len(),
            lent.rows.as_mut_ptr(),
            lent.rows.len(),
            lent.memory.as_mut_ptr(),
            lent.memory.len(),
        )
    }
}

/// What a call came to: the output's bytes, or number and place of the refusal, whole.
pub type Told = Result<Vec<u8>, (u64, u64)>;

/// The same, with the output, of a call that was lent this buffer.
fn told(outcome: CallOutcome, buffer: &[u8]) -> Told {
    if outcome.refusal == 0 {
        assert_eq!(outcome.place, 0, "the place of a call that was done");
        return Ok(buffer[..outcome.length as usize].to_vec());
    }
    assert_eq!(outcome.length, 0, "the length of a call that was refused");
    Err((outcome.refusal, outcome.place))
}

/// Runs a job.
pub fn run(job: &[u8], lent: &mut Lent) -> Told {
    let outcome = run_only(job, lent);
    told(outcome, &lent.result)
}

/// The tidying of a charge file.
pub fn tidy_only(file: &[u8], depth: u64, out: &mut [u8]) -> CallOutcome {
    // SAFETY: the contract of `chargefile_tidy` asks nothing of the two slices
    unsafe {
        chargefile_tidy(
            file.as_ptr(),
            file.len(),
            depth,
            out.as_mut_ptr(),
            out.len(),
        )
    }
}

/// Tidies a charge file.
pub fn tidy(file: &[u8], depth: u64, out: &mut [u8]) -> Told {
    let outcome = tidy_only(file, depth, out);
    told(outcome, out)
}

/// The dealing of turns for a job.
pub fn deal_only(job: &[u8], lent: &mut Lent) -> CallOutcome {
    let Lent {
        result: out,
        rows,
        memory,
    } = lent;
    deal_with(job, out, rows, memory)
}

fn deal_with(job: &[u8], out: &mut [u8], rows: &mut [Row], memory: &mut [u8]) -> CallOutcome {
    // SAFETY: the contract of `chargefile_deal` asks nothing of the four slices
    unsafe {
        chargefile_deal(
            job.as_ptr(),
            job.len(),
            out.as_mut_ptr(),
            out.len(),
            rows.as_mut_ptr(),
            rows.len(),
            memory.as_mut_ptr(),
            memory.len(),
        )
    }
}

/// Has turns dealt for a job.
pub fn deal(job: &[u8], lent: &mut Lent) -> Told {
    let outcome = deal_only(job, lent);
    told(outcome, &lent.result)
}

/// The pricing of a switch's log.
pub fn price_only(tariff: &[u8], log: &[u8], out: &mut [u8]) -> CallOutcome {
    let (t, l, o) = (tariff.as_ptr(), log.as_ptr(), out.as_mut_ptr());
    // SAFETY: the contract of `chargefile_price` asks nothing of the three slices
    unsafe { chargefile_price(t, tariff.len(), l, log.len(), o, out.len()) }
}

/// Prices a switch's log.
pub fn price(tariff: &[u8], log: &[u8], out: &mut [u8]) -> Told {
    let outcome = price_only(tariff, log, out);
    told(outcome, out)
}

/// What the library must tell where the tests' own implementation comes to this.
pub fn wanted(outcome: &Outcome) -> Told {
    match outcome {
        Outcome::Done { result } => Ok(result.clone()),
        Outcome::Refused { number, place } => Err((u64::from(*number), u64::from(*place))),
    }
}

/// Runs a job with so much lent. It comes to this, and what is lent is left as the document says; a refusal has written nothing.
pub fn comes_to(job: &[u8], room: Room, wanted: &Outcome) {
    called(run, job, room, wanted);
}

/// Has turns dealt for a job with so much lent. It comes to this; rows and working memory "are left as after a run", and a refusal has written nothing.
pub fn deals_to(job: &[u8], room: Room, wanted: &Outcome) {
    called(deal, job, room, wanted);
}

fn called(
    call: fn(&[u8], &mut Lent) -> Told,
    job: &[u8],
    (output, rows, memory): Room,
    wanted: &Outcome,
) {
    let before = Lent::new(output, rows, memory);
    let mut after = before.clone();
    let given = black_box(job.to_vec());
    let told = call(&given, &mut after);
    assert!(black_box(given) == job, "the job's own bytes are written");
    assert_eq!(told, self::wanted(wanted));
    match wanted {
        Outcome::Refused { .. } => {
            assert!(
                after == before,
                "a refused job has written to a lent buffer"
            );
        }
        Outcome::Done { result } => {
            let end = result.len();
            assert!(
                after.result[end..] == before.result[end..],
                "bytes past the total"
            );
            assert!(
                after.rows.iter().all(|row| *row == NO_ROW),
                "rows after a run"
            );
            assert!(
                after.memory.iter().all(|byte| *byte == 0),
                "memory after a run"
            );
        }
    }
}

/// Bytes that begin so many behind an address that is a multiple of 16, with others on both sides.
struct Placed {
    all: Vec<u8>,
    first: usize,
    length: usize,
}

impl Placed {
    /// Bytes on both sides together: at least 16 on each, whatever the address.
    const BESIDE: usize = 64;

    /// So many bytes, all of one value as those on both sides.
    fn filled(byte: u8, length: usize, behind: usize) -> Placed {
        let all = vec![byte; length + Placed::BESIDE];
        let first = 16 + all.as_ptr().align_offset(16) + behind;
        assert!(first + 16 <= Placed::BESIDE, "bytes behind it");
        Placed { all, first, length }
    }

    /// These bytes.
    fn of(bytes: &[u8], behind: usize) -> Placed {
        let mut placed = Placed::filled(0x3C, bytes.len(), behind);
        placed.bytes().copy_from_slice(bytes);
        placed
    }

    fn bytes(&mut self) -> &mut [u8] {
        &mut self.all[self.first..][..self.length]
    }
}

/// Tidies a charge file at a depth with an output of so many bytes lent. It comes to this; bytes of the output past the tidied file keep their values, as
/// do all of them after a refusal, those beside the output, and the file's own. The file's bytes and the output begin so many behind a round address.
pub fn tidies_to(file: &[u8], depth: u64, room: usize, behind: (usize, usize), wanted: &Outcome) {
    let mut given = black_box(Placed::of(file, behind.0));
    let mut out = Placed::filled(0xA5, room, behind.1);
    let told = tidy(given.bytes(), depth, out.bytes());
    assert!(
        black_box(given).bytes() == file,
        "the file's own bytes are written"
    );
    assert_eq!(told, self::wanted(wanted), "depth {depth}, room {room}");
    if let Outcome::Done { result } = wanted {
        out.bytes()[..result.len()].fill(0xA5);
    }
    assert!(
        out.all.iter().all(|byte| *byte == 0xA5),
        "a byte that is not the output's is written"
    );
}

/// Prices a switch's log with an output of so many bytes lent. It comes to this; bytes of the output past the inserts keep their values, as do all of them
/// after a refusal, those beside the output, and those of tariff and log. All three begin so many behind a round address.
pub fn prices_to(tariff: &[u8], log: &[u8], room: usize, behind: [usize; 3], wanted: &Outcome) {
    let mut given_tariff = black_box(Placed::of(tariff, behind[0]));
    let mut given_log = black_box(Placed::of(log, behind[1]));
    let mut out = Placed::filled(0xA5, room, behind[2]);
    let told = price(given_tariff.bytes(), given_log.bytes(), out.bytes());
    let kept = black_box(given_tariff).bytes() == tariff && black_box(given_log).bytes() == log;
    assert!(kept, "bytes of the tariff or of the log are written");
    assert!(told == self::wanted(wanted), "room {room}: {told:?}");
    if let Outcome::Done { result } = wanted {
        out.bytes()[..result.len()].fill(0xA5);
    }
    assert!(
        out.all.iter().all(|byte| *byte == 0xA5),
        "a byte that is not the output's is written"
    );
}

/// The same as [`deals_to`], with the job's bytes, the output and the working memory so many bytes behind a round address. Nothing beside what is lent is
/// written either.
pub fn deals_at(job: &[u8], room: Room, behind: [usize; 3], wanted: &Outcome) {
    let mut given = black_box(Placed::of(job, behind[0]));
    let mut out = Placed::filled(0xA5, room.0, behind[1]);
    let mut memory = Placed::filled(0xC3, room.2, behind[2]);
    let mut rows = vec![row_of(0x5A); room.1 + 2];
    let lent_rows = &mut rows[1..=room.1];
    let outcome = deal_with(given.bytes(), out.bytes(), lent_rows, memory.bytes());
    assert!(
        black_box(given).bytes() == job,
        "the job's own bytes are written"
    );
    assert_eq!(told(outcome, out.bytes()), self::wanted(wanted));
    if let Outcome::Done { result } = wanted {
        out.bytes()[..result.len()].fill(0xA5);
        let lent_rows = &mut rows[1..=room.1];
        let zero = memory.bytes().iter().all(|byte| *byte == 0);
        assert!(zero && lent_rows.iter().all(|row| *row == NO_ROW));
        lent_rows.fill(row_of(0x5A));
        memory.bytes().fill(0xC3);
    }
    assert!(
        out.all.iter().all(|byte| *byte == 0xA5)
            && memory.all.iter().all(|byte| *byte == 0xC3)
            && rows.iter().all(|row| *row == row_of(0x5A)),
        "what is not to be written is written"
    );
}
