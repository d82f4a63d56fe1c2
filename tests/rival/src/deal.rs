//! Turns dealt for a job that has none. The machine of a run takes each step on the turn that is dealt; an operation that waits is not asked again before
//! somebody has let go of its page.

use crate::check::accepted;
use crate::header::{by_length, Header};
use crate::log::Log;
use crate::operation::{Operation, Row, RELEASE, UNLOCK, UNLOCK_NEW};
use crate::run::step;
use crate::tables::{at_start, Next, Shared, MEMORY_LENGTH};
use crate::Refusal;

/// How many bytes more than the job an output must have: room for the longest list.
const MORE: usize = 20_476;

/// Writes a job with a list of turns: gives its length, or the refusal.
pub fn deal(
    job: &[u8],
    out: &mut [u8],
    rows: &mut [Row],
    memory: &mut [u8],
) -> Result<usize, Refusal> {
    let header = accepted(job)?;
    if header.turns > 0 {
        return Err((21, 10));
    }
    if out.len() < job.len() + MORE {
        return Err((11, 0));
    }
    if rows.len() < header.operations {
        return Err((11, 1));
    }
    if memory.len() < MEMORY_LENGTH {
        return Err((11, 2));
    }
    let (same, list) = out.split_at_mut(job.len());
    same.copy_from_slice(job);
    let turns = list[..MORE].as_chunks_mut().0;
    let count = by_length!(
        header.capacity,
        deal_sized,
        job,
        &header,
        turns,
        rows,
        memory
    );
    let total = job.len() + 2 * count;
    same[10..12].copy_from_slice(&(count as u16).to_le_bytes());
    same[28..32].copy_from_slice(&(total as u32).to_le_bytes());
    Ok(total)
}

/// Deals the list; gives how many turns it has.
#[inline(never)]
fn deal_sized<const N: usize>(
    job: &[u8],
    header: &Header,
    turns: &mut [[u8; 2]],
    lent: &mut [Row],
    memory: &mut [u8],
) -> usize {
    let rows = &mut lent[..header.operations];
    rows.fill(Row::default());
    // a run would have a log, and its steps write one
    let mut lines = [[0; 4]; 256];
    let (shared, next) = at_start::<N>(job, header, memory, Log::new(&mut lines));
    let mut dealer = Dealer {
        shared,
        next,
        operations: job[header.operations_at()..].as_chunks().0,
        rows,
        turns,
        count: 0,
        able: first(header.operations),
        waiting: [[0; 4]; 256],
    };
    dealer.deal_all(header.operations);
    let count = dealer.count;
    lent.fill(Row::default());
    memory.fill(0);
    count
}

/// A set of operations, a bit for each.
type Set = [u64; 4];

/// The first so many operations.
fn first(count: usize) -> Set {
    let mut set = [0; 4];
    for (k, word) in set.iter_mut().enumerate() {
        let bits = count.saturating_sub(64 * k).min(64);
        *word = if bits == 64 {
            u64::MAX
        } else {
            (1 << bits) - 1
        };
    }
    set
}

/// The bits behind this one.
#[inline(always)]
fn behind(bit: u32) -> u64 {
    u64::MAX << (bit & 63) << 1
}

/// The lowest operation of a set that is above this one; if there is none, the lowest.
#[inline(always)]
fn next_of(set: &Set, above: usize) -> Option<usize> {
    let own = above >> 6 & 3;
    let number = |k: usize, word: u64| (word != 0).then(|| k << 6 | word.trailing_zeros() as usize);
    number(own, set[own] & behind(above as u32))
        .or_else(|| (own + 1..4).find_map(|k| number(k, set[k])))
        .or_else(|| (0..4).find_map(|k| number(k, set[k])))
}

/// A dealing under way. Every unfinished operation is among those that are `able` to use a turn, as far as is known, or waits for a page.
struct Dealer<'a, 'l, const N: usize> {
    shared: Shared<'a, 'l, N>,
    next: Next<'a>,
    operations: &'a [[u8; 10]],
    rows: &'a mut [Row],
    turns: &'a mut [[u8; 2]],
    count: usize,
    able: Set,
    waiting: [Set; 256],
}

impl<const N: usize> Dealer<'_, '_, N> {
    /// Round after round, until so many have finished.
    #[inline(always)]
    fn deal_all(&mut self, mut unfinished: usize) {
        while unfinished > 0 {
            for k in 0..4 {
                // those whose moment in this round is still to come
                let mut to_come = u64::MAX;
                while self.able[k] & to_come != 0 {
                    let bit = (self.able[k] & to_come).trailing_zeros();
                    to_come = behind(bit);
                    unfinished -= self.ask(k, bit) as usize;
                }
            }
        }
    }

    /// The moment of an operation in a round: it gets its turn, or waits. Gives whether it is finished.
    #[inline(always)]
    fn ask(&mut self, k: usize, bit: u32) -> bool {
        let i = k << 6 | bit as usize;
        let gate = u16::from_le_bytes(self.next.gates[i]);
        if self.shared.locks[(gate & 511) as usize] != 0 {
            // it has not finished, so its gate is a page
            self.able[k] ^= 1 << bit;
            self.waiting[(gate & 255) as usize][k] |= 1 << bit;
            return false;
        }
        self.turns[self.count] = (i as u16).to_le_bytes();
        let finished = self.deal(i);
        self.count += 1;
        if finished {
            self.able[k] ^= 1 << bit;
        }
        finished
    }

    /// A turn of an operation; whoever waits for a page that it lets go of is asked again.
    #[inline(always)]
    fn deal(&mut self, i: usize) -> bool {
        let stage = self.next.stages[i];
        let Row {
            page, base, count, ..
        } = self.rows[i];
        let mut operation = Operation {
            number: i,
            now: self.count as u16,
            bytes: &self.operations[i],
            row: &mut self.rows[i],
            gate: &mut self.next.gates[i],
            stage: &mut self.next.stages[i],
        };
        let finished = step(&mut self.shared, &mut operation);
        match stage {
            RELEASE | UNLOCK => self.freed(page, i),
            UNLOCK_NEW => (0..count).for_each(|new| self.freed(base.wrapping_add(new), i)),
            _ => {}
        }
        finished
    }

    /// A page is unlocked: of those that wait for it, one is asked, the first whose moment comes. Who is there before it has the page for more than
    /// this round, so that the others need not be asked.
    #[inline(always)]
    fn freed(&mut self, page: u8, by: usize) {
        let waiting = &mut self.waiting[page as usize];
        if let Some(i) = next_of(waiting, by) {
            waiting[i >> 6 & 3] ^= 1 << (i & 63);
            self.able[i >> 6 & 3] |= 1 << (i & 63);
        }
    }
}
