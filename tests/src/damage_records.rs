//! Faults of one record of a sound job: row 8.
//!
//! A record is told for its own call, where its pseudo key does not begin with
//! the pattern, or for the one before it, where it is not above that one. In the
//! second case the fault writes the calls of both, the one that keeps its value
//! too: another fault that changes it could undo this one, and so the two count
//! as overlapping.
//!
//! Records are counted from 0.

use crate::check::page_place;
use crate::damage::{write, Fault};
use crate::job::Job;
use crate::key;
use crate::one_key;
use crate::page::{Page, Record};
use crate::random::Random;

/// Another call in record `k` of a page. It is met there, or at the next record
/// if that one is no longer above it; `None` if the page stays sound.
pub fn call(job: &Job, number: usize, k: usize, call: u32) -> Option<Fault> {
    let page = job.file.page(number);
    let mut calls = page.calls();
    calls[k] = call;
    let begins = key::index(call, page.depth) == page.pattern as usize;
    let falls = |at: usize| at > 0 && at < calls.len() && calls[at] <= calls[at - 1];
    let (met, written) = if !begins {
        (k, k..k + 1)
    } else if falls(k) {
        (k, k - 1..k + 1)
    } else if falls(k + 1) {
        (k + 1, k..k + 2)
    } else {
        return None;
    };
    let place = |at: usize| record_place(job, number, at);
    let edits = written.flat_map(|at| write(place(at), calls[at] as usize, 4));
    Some(Fault::new(8, place(met), edits.collect()))
}

/// A call that belongs in another page: one of the bits that the pattern asks
/// for is another, by its position from the front.
pub fn misfiled(job: &Job, number: usize, k: usize, position: u32) -> Option<Fault> {
    let Page { depth, records, .. } = job.file.page(number);
    if position >= *depth {
        return None;
    }
    let other = key::neighbour(records[k].call, position);
    call(job, number, k, other)
}

/// The call of record `k` once more, in a later record: it is earlier in the
/// page.
pub fn repeated(job: &Job, number: usize, k: usize, later: usize) -> Option<Fault> {
    let again = job.file.page(number).records[k].call;
    (k < later).then(|| call(job, number, later, again))?
}

/// Another call with the key of record `k`, in its place. It belongs in the page,
/// so it is for the order that it is met, if it is.
pub fn of_its_key(job: &Job, number: usize, k: usize, other: u32) -> Option<Fault> {
    let own = job.file.page(number).records[k].call;
    let same = key::pseudo_key(other) == key::pseudo_key(own);
    same.then(|| call(job, number, k, other))?
}

/// One byte of a call, counted from its first, with another value. Whichever it
/// is, the first bits of the key mostly change with it; in the last it is the
/// call's highest bits that change too, and so the order.
pub fn byte_of_call(job: &Job, number: usize, k: usize, at: usize, value: u8) -> Option<Fault> {
    let mut bytes = job.file.page(number).records[k].call.to_le_bytes();
    bytes[at] = value;
    call(job, number, k, u32::from_le_bytes(bytes))
}

/// Record `k` and the one before it exchanged. The higher call, now in front,
/// is above all before it; the lower one is met.
pub fn exchanged(job: &Job, number: usize, k: usize) -> Option<Fault> {
    let records = &job.file.page(number).records;
    if k == 0 || k >= records.len() {
        return None;
    }
    let place = record_place(job, number, k);
    let mut edits = write_record(place - 8, records[k]);
    edits.extend(write_record(place, records[k - 1]));
    Some(Fault::new(8, place, edits))
}

/// A higher count, so that records that are not used count as well. They are
/// zero, and call 0 is above no other: the first of them is met that has one
/// before it or does not belong in the page.
pub fn counted(job: &Job, number: usize, count: u8) -> Option<Fault> {
    let page = job.file.page(number);
    let (held, counted) = (page.records.len(), usize::from(count));
    let belongs = key::index(0, page.depth) == page.pattern as usize;
    let met = held + usize::from(held == 0 && belongs);
    if met >= counted || counted > job.file.capacity {
        return None;
    }
    let place = |at: usize| record_place(job, number, at);
    let mut edits = write(place(0) - 3, counted, 1);
    if let Some(last) = page.records.last() {
        edits.extend(write(place(held - 1), last.call as usize, 4));
    }
    edits.extend((place(held)..place(counted)).map(|at| (at, 0)));
    Some(Fault::new(8, place(met), edits))
}

/// A fault of row 8 in some page. Many a change leaves a page of few records
/// sound, so several are tried.
pub fn some_record(random: &mut Random, job: &Job) -> Option<Fault> {
    let held = |number: usize| job.file.page(number).records.len();
    let with_records = (1..=job.file.in_use).filter(|number| held(*number) > 0);
    let numbers: Vec<usize> = with_records.collect();
    if numbers.is_empty() {
        return None;
    }
    let tried = (0..8).map(|_| {
        let number = random.one_of(&numbers);
        let k = random.below(held(number));
        match random.below(7) {
            0 => misfiled(job, number, k, random.below(8) as u32),
            6 => {
                let others = one_key::others(job.file.page(number).records[k].call);
                let other = (!others.is_empty()).then(|| random.one_of(&others))?;
                of_its_key(job, number, k, other)
            }
            1 => repeated(job, number, random.below(k + 1), k),
            2 => exchanged(job, number, k),
            3 => byte_of_call(job, number, k, 0, random.bits() as u8),
            4 => byte_of_call(job, number, k, 3, random.bits() as u8),
            _ => counted(job, number, held(number) as u8 + 1),
        }
    });
    tried.flatten().next()
}

/// The first byte of a record.
fn record_place(job: &Job, number: usize, k: usize) -> usize {
    page_place(&job.counts(), number) + 4 + 8 * k
}

/// The edits that write a whole record.
fn write_record(place: usize, record: Record) -> Vec<(usize, u8)> {
    let mut edits = write(place, record.call as usize, 4);
    edits.extend(write(place + 4, record.charge as usize, 4));
    edits
}
