//! The operations as state machines, one step a turn ("Turns").

use std::collections::VecDeque;

use crate::answer::Code;
use crate::file::Looked;
use crate::job::{Kind, Operation};
use crate::page::{Page, Record};
use crate::shared::Shared;
use crate::split::{new_pages_needed, split, Full, Split};

/// What a turn came to.
#[derive(Clone, Copy, Debug, PartialEq, Eq)]
pub enum Turned {
    /// It did its step.
    Did,
    /// "If it is locked, the turn only waits."
    Waited,
    /// "A turn for a finished operation does nothing."
    Idle,
}

/// The step an operation will take on its next turn.
#[derive(Clone, Debug, PartialEq, Eq)]
pub enum Stage {
    NotBegun,
    /// Search: read this page.
    ReadPage(usize),
    /// Search: read the entry again, after reading this page on this turn.
    ReadEntryAgain {
        page: usize,
        read_on: usize,
    },
    /// (b) lock this page.
    Lock(usize),
    /// (c) read the entry again, holding this page.
    Verify(usize),
    /// Unlock the page held; (b) follows with the page just read.
    LetGo {
        held: usize,
        next: usize,
    },
    /// (d) read this page and decide.
    Decide(usize),
    /// Carry out what turn (d) decided, a step a turn.
    CarryOut(VecDeque<Step>),
    Finished,
}

/// A step decided on turn (d). If it settles the operation, its turn is the
/// operation's moment.
#[derive(Clone, Debug, PartialEq, Eq)]
pub struct Step {
    action: Action,
    settles: Option<Told>,
}

#[derive(Clone, Debug, PartialEq, Eq)]
enum Action {
    WritePage(usize, Page),
    WriteEntry(usize, usize),
    Unlock(Vec<usize>),
}

impl Action {
    fn step(self) -> Step {
        Step {
            action: self,
            settles: None,
        }
    }

    fn settling(self, when: bool, told: Told) -> Step {
        Step {
            action: self,
            settles: when.then_some(told),
        }
    }
}

/// What an operation's answer tells: the code, the page behind it, and the
/// charge.
#[derive(Clone, Copy, Debug, PartialEq, Eq)]
pub struct Told {
    pub code: Code,
    pub page: usize,
    pub charge: u32,
}

/// An operation's answer once its moment is known.
#[derive(Clone, Copy, Debug, PartialEq, Eq)]
pub struct Settled {
    pub told: Told,
    pub moment: usize,
}

/// An operation under way.
#[derive(Clone, Debug)]
pub struct Progress {
    pub number: usize,
    pub operation: Operation,
    pub stage: Stage,
    pub settled: Option<Settled>,
}

impl Progress {
    /// An operation not begun.
    pub fn new(number: usize, operation: Operation) -> Progress {
        Progress {
            number,
            operation,
            stage: Stage::NotBegun,
            settled: None,
        }
    }

    /// Whether its last turn is behind it.
    pub fn finished(&self) -> bool {
        self.stage == Stage::Finished
    }

    /// Whether the next turn, given to this operation, would wait.
    pub fn would_wait(&self, shared: &Shared) -> bool {
        matches!(self.stage, Stage::Lock(page) if shared.locked(page))
    }

    /// "One turn is one step of the operation it names."
    pub fn take_turn(&mut self, shared: &mut Shared, now: usize) -> Turned {
        if self.finished() {
            return Turned::Idle;
        }
        if self.would_wait(shared) {
            return Turned::Waited;
        }
        let stage = std::mem::replace(&mut self.stage, Stage::Finished);
        self.stage = match stage {
            Stage::NotBegun => self.read_entry(shared),
            Stage::ReadPage(page) => self.search_page(page, shared, now),
            Stage::ReadEntryAgain { page, read_on } => self.search_again(page, read_on, shared),
            Stage::Lock(page) => {
                shared.lock(page, self.number);
                Stage::Verify(page)
            }
            Stage::Verify(page) => self.verify(page, shared),
            Stage::LetGo { held, next } => {
                // "Its retry loop unlocks the page just read. The page held
                // is unlocked."
                shared.unlock(held, self.number);
                Stage::Lock(next)
            }
            Stage::Decide(page) => Stage::CarryOut(self.decide(page, shared, now)),
            Stage::CarryOut(steps) => self.carry_out(steps, shared, now),
            Stage::Finished => unreachable!("a finished operation was idle above"),
        };
        Turned::Did
    }

    fn settle(&mut self, told: Told, moment: usize) {
        assert!(self.settled.is_none(), "an operation has one moment");
        self.settled = Some(Settled { told, moment });
    }

    /// The page its entry names now.
    fn named(&self, shared: &Shared) -> usize {
        shared.file.page_of(self.operation.call)
    }

    fn read_entry(&self, shared: &Shared) -> Stage {
        match self.operation.kind {
            Kind::Search => Stage::ReadPage(self.named(shared)),
            Kind::Insert | Kind::Delete => Stage::Lock(self.named(shared)),
        }
    }

    /// "Read that page (found: finished)". A found search's moment is "its
    /// page reading, or, where its entry no longer names that page, the turn
    /// on which the entry was changed from it": the record it read had been
    /// moved by then, and that turn is the last on which it stood there. The
    /// page told is that which it read, "the page last read by a search".
    fn search_page(&mut self, page: usize, shared: &mut Shared, now: usize) -> Stage {
        let call = self.operation.call;
        let Looked { page, record } = shared.file.look(page, call);
        let Some(record) = record else {
            return Stage::ReadEntryAgain { page, read_on: now };
        };
        let named = self.named(shared);
        let stale = named != page;
        let gone = stale && shared.file.look(named, call).record != Some(record);
        shared.tally.stale_found += usize::from(stale);
        shared.tally.stale_found_gone += usize::from(gone);
        let moment = if stale {
            shared.changed_from(shared.file.entry_of(call), page)
        } else {
            now
        };
        let found = Told {
            code: Code::Found,
            page,
            charge: record.charge,
        };
        self.settle(found, moment);
        Stage::Finished
    }

    /// "Read the entry again. The same page number means 'none', finished;
    /// else read the page now named." Only now is it known that the last page
    /// reading was the last, so the code is set on this turn.
    fn search_again(&mut self, page: usize, read_on: usize, shared: &mut Shared) -> Stage {
        let named = self.named(shared);
        if named != page {
            shared.tally.search_retries += 1;
            return Stage::ReadPage(named);
        }
        let none = Told {
            code: Code::None,
            page,
            charge: 0,
        };
        self.settle(none, read_on);
        Stage::Finished
    }

    /// "(c) read the entry again. If it names another page, the next turn
    /// unlocks the page held, and (b) follows with the page just read."
    fn verify(&self, held: usize, shared: &mut Shared) -> Stage {
        let next = self.named(shared);
        if next == held {
            return Stage::Decide(held);
        }
        shared.tally.retries += 1;
        Stage::LetGo { held, next }
    }

    /// "(d) read the page and decide": everything still to do, in order. The
    /// code of "already there" and the other refusals is set at once, that of
    /// "differs" too: "its moment is turn (d), the next turn unlocks, and
    /// nothing changes". "Its duplicate answer keeps the lock. Here it is
    /// released." Whatever is told of this page has "the page read in turn
    /// (d)".
    fn decide(&mut self, number: usize, shared: &mut Shared, now: usize) -> VecDeque<Step> {
        let Operation { kind, call, charge } = self.operation;
        let looked = shared.file.look(number, call);
        let page = shared.file.page(number).clone();
        let told = |code, charge| Told {
            code,
            page: looked.page,
            charge,
        };
        let steps = match (kind, looked.record) {
            (Kind::Search, _) => unreachable!("a search locks nothing"),
            (Kind::Insert, Some(there)) => Err(told(Code::AlreadyThere, there.charge)),
            (Kind::Insert, None) if page.records.len() < shared.file.capacity => {
                let written = page.add(Record { call, charge });
                Ok(rewrite(number, written, told(Code::Stored, charge)))
            }
            (Kind::Insert, None) => self
                .decide_split(number, &page, shared)
                .map_err(|code| told(code, 0)),
            (Kind::Delete, None) => Err(told(Code::Absent, 0)),
            (Kind::Delete, Some(there)) if strikes_out(charge, there.charge) => {
                let written = page.remove(call);
                Ok(rewrite(number, written, told(Code::Deleted, there.charge)))
            }
            (Kind::Delete, Some(there)) => Err(told(Code::Differs, there.charge)),
        };
        steps.unwrap_or_else(|told| {
            self.settle(told, now);
            VecDeque::from([Action::Unlock(vec![number]).step()])
        })
    }

    /// "'No depth' exactly when all c records share their first g bits with
    /// the call; otherwise 'no page' exactly when U + n is above P."
    fn decide_split(
        &self,
        number: usize,
        page: &Page,
        shared: &mut Shared,
    ) -> Result<VecDeque<Step>, Code> {
        let Operation { call, charge, .. } = self.operation;
        let file = &shared.file;
        let needed = new_pages_needed(page, call, file.depth).ok_or(Code::NoDepth)?;
        if file.in_use + needed > file.pages.len() {
            return Err(Code::NoPage);
        }
        let full = Full {
            number,
            page,
            global: file.depth,
            in_use: file.in_use,
        };
        let split = split(full, Record { call, charge }, file.capacity);
        assert_eq!(split.new.len(), needed, "the shared bits settle n");
        for (new, _) in &split.new {
            shared.take_page(*new, self.number);
        }
        shared.tally.splits += 1;
        shared.tally.multi_page_splits += usize::from(needed > 1);
        shared.tally.largest_split = shared.tally.largest_split.max(needed);
        shared.tally.stored_in_new_page += usize::from(split.home != number);
        Ok(self.split_steps(number, split, shared.file.entry_of(call)))
    }

    /// "Then one turn for each new page written, one for each changed entry by
    /// rising index, one unlocking all new pages, one writing the old page,
    /// one unlocking it." The moment is "the writing of the page the call is
    /// in if that is the old page, else the writing of the call's own entry";
    /// either way the page told is the one the call is in, which its own entry
    /// then names.
    fn split_steps(&self, number: usize, split: Split, own_entry: usize) -> VecDeque<Step> {
        let stored = Told {
            code: Code::Stored,
            page: split.home,
            charge: self.operation.charge,
        };
        let at_home = split.home == number;
        let taken: Vec<usize> = split.new.iter().map(|(new, _)| *new).collect();
        let mut steps = VecDeque::new();
        for (new, page) in split.new {
            steps.push_back(Action::WritePage(new, page).step());
        }
        for (entry, new) in split.changed {
            let own = !at_home && entry == own_entry;
            steps.push_back(Action::WriteEntry(entry, new).settling(own, stored));
        }
        steps.push_back(Action::Unlock(taken).step());
        steps.push_back(Action::WritePage(number, split.old).settling(at_home, stored));
        steps.push_back(Action::Unlock(vec![number]).step());
        steps
    }

    fn carry_out(&mut self, mut steps: VecDeque<Step>, shared: &mut Shared, now: usize) -> Stage {
        let step = steps.pop_front().expect("a step is left");
        match step.action {
            Action::WritePage(number, page) => *shared.file.page_mut(number) = page,
            Action::WriteEntry(entry, page) => shared.write_entry(entry, page, now),
            Action::Unlock(pages) => {
                for page in pages {
                    shared.unlock(page, self.number);
                }
            }
        }
        if let Some(told) = step.settles {
            self.settle(told, now);
        }
        if steps.is_empty() {
            Stage::Finished
        } else {
            Stage::CarryOut(steps)
        }
    }
}

/// Whether a delete that asks for this charge takes out a call at that one. "A
/// delete with charge zero strikes out as ever"; another "deletes only where the
/// file's charge is equal".
fn strikes_out(asked: u32, held: u32) -> bool {
    asked == 0 || asked == held
}

/// "Otherwise a turn writes the page and a turn unlocks it, finished."
fn rewrite(number: usize, page: Page, told: Told) -> VecDeque<Step> {
    VecDeque::from([
        Action::WritePage(number, page).settling(true, told),
        Action::Unlock(vec![number]).step(),
    ])
}
