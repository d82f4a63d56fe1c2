//! A run: the turns dealt out one by one, then the result.

use crate::check::accepted;
use crate::header::{by_length, Header};
use crate::log::Log;
use crate::operation::*;
use crate::result::{self, Contents, ANSWER_LENGTH, LINE_LENGTH, RESULT_HEADER_LENGTH};
use crate::tables::{at_start, Next, Shared, MEMORY_LENGTH};
use crate::Refusal;

/// Checks a job, runs it and writes its result: gives its length, or the refusal, by any row.
pub fn run(
    job: &[u8],
    result: &mut [u8],
    rows: &mut [Row],
    memory: &mut [u8],
) -> Result<usize, Refusal> {
    let header = accepted(job)?;
    if result.len() < result::room(&header) {
        return Err((11, 0));
    }
    if rows.len() < header.operations {
        return Err((11, 1));
    }
    if memory.len() < MEMORY_LENGTH {
        return Err((11, 2));
    }
    let total = by_length!(
        header.capacity,
        run_sized,
        job,
        &header,
        result,
        rows,
        memory
    );
    Ok(total)
}

#[inline(never)]
fn run_sized<const N: usize>(
    job: &[u8],
    header: &Header,
    result: &mut [u8],
    lent: &mut [Row],
    memory: &mut [u8],
) -> usize {
    let m = header.operations;
    let rows = &mut lent[..m];
    rows.fill(Row::default());
    let (answers, lines) = result[RESULT_HEADER_LENGTH..].split_at_mut(ANSWER_LENGTH * m);
    let log = Log::new(lines[..LINE_LENGTH * m].as_chunks_mut().0);
    let (mut shared, next) = at_start::<N>(job, header, memory, log);
    let under_way = deal(job, header, &mut shared, next, rows);
    result::write_answers(answers, rows);
    let Shared { file, log, .. } = shared;
    let contents = Contents::new(header, log.finish(rows), under_way);
    if under_way == 0 {
        let out = &mut result[contents.file..contents.total];
        result::write_file(out, job, header, &file);
    }
    contents.write_header(result);
    lent.fill(Row::default());
    memory.fill(0);
    contents.total
}

/// Deals the turns; gives how many operations are begun but unfinished.
#[inline(always)]
fn deal<const N: usize>(
    job: &[u8],
    header: &Header,
    shared: &mut Shared<N>,
    next: Next,
    rows: &mut [Row],
) -> usize {
    let operations = job[header.operations_at()..header.turns_at()].as_chunks().0;
    let turns = job[header.turns_at()..].as_chunks::<2>().0;
    let mut finished = 0;
    for (now, turn) in turns.iter().enumerate() {
        // the turn of an accepted job is below 256
        let i = turn[0] as usize;
        if shared.locks[(u16::from_le_bytes(next.gates[i]) & 511) as usize] != 0 {
            continue;
        }
        let mut operation = Operation {
            number: i,
            now: now as u16,
            bytes: &operations[i],
            row: &mut rows[i],
            gate: &mut next.gates[i],
            stage: &mut next.stages[i],
        };
        operation.row.used += 1;
        if step(shared, &mut operation) {
            finished += 1;
            // only turns that do nothing are left
            if finished == header.operations {
                break;
            }
        }
    }
    shared.begun - finished
}

/// One step of the operation; gives whether it is finished.
#[inline(always)]
pub fn step<const N: usize>(shared: &mut Shared<N>, operation: &mut Operation) -> bool {
    match *operation.stage {
        NOT_BEGUN => shared.begin(operation),
        READ_PAGE => shared.read_page(operation),
        REREAD => shared.reread(operation),
        LOCK => shared.lock(operation),
        VERIFY => shared.verify(operation),
        RELEASE => shared.release(operation),
        DECIDE => shared.decide(operation),
        WRITE_PAGE => shared.write_page(operation),
        WRITE_NEW => shared.write_new(operation),
        WRITE_ENTRY => shared.write_entry(operation),
        UNLOCK_NEW => shared.unlock_new(operation),
        WRITE_OLD => shared.write_old(operation),
        _ => shared.unlock(operation),
    }
}
