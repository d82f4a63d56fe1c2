//! Damaged jobs, for every row of the refusal table that is about a job's
//! bytes alone.
//!
//! A [`Fault`] is made in a sound job at a place that is known beforehand, so
//! a test can ask for exactly that number and place; those of a page are in
//! [`crate::damage_pages`], those of a record in [`crate::damage_records`].
//! [`scribble`] damages at random; what comes of it has to be found out some
//! other way.

use crate::check::{entry_place, page_place};
use crate::damage_pages;
use crate::damage_records;
use crate::job::{
    Counts, Job, Kind, Layout, Operation, HEADER_LENGTH, MAX_CAPACITY, MAX_DEPTH, MAX_OPERATIONS,
    MAX_PAGES, MAX_TURNS, OPERATION_LENGTH, TURN_LENGTH,
};
use crate::random::Random;

/// The numbers that a fault can be asked for: all rows about the job's bytes,
/// in the order in which they are checked (12, 6 and 13 page by page).
pub const NUMBERS: [u32; 12] = [1, 2, 3, 4, 5, 12, 6, 13, 7, 8, 9, 10];

/// A fault with the refusal that a sound job gets by it.
#[derive(Clone, Debug, PartialEq, Eq)]
pub struct Fault {
    pub number: u32,
    pub place: u32,
    /// The page that a fault of row 12, 6 or 13 is in, by its number from 1.
    page: Option<usize>,
    edits: Vec<(usize, u8)>,
    length: Option<usize>,
}

impl Fault {
    pub(crate) fn new(number: u32, place: usize, edits: Vec<(usize, u8)>) -> Fault {
        Fault {
            number,
            place: place as u32,
            page: None,
            edits,
            length: None,
        }
    }

    /// A fault that is looked for page by page.
    pub(crate) fn of_page(
        page: usize,
        number: u32,
        place: usize,
        edits: Vec<(usize, u8)>,
    ) -> Fault {
        Fault {
            page: Some(page),
            ..Fault::new(number, place, edits)
        }
    }

    /// Of two faults that stand beside each other the one that is told.
    pub fn first_of<'a>(one: &'a Fault, other: &'a Fault) -> &'a Fault {
        if one.when() < other.when() {
            one
        } else {
            other
        }
    }

    /// When the check comes to this fault. The rows go by rising number, those
    /// of the pages in the place of 6, and a page is done with before the next:
    /// 12, then 6, then 13. Then it is the lowest place.
    fn when(&self) -> (u32, usize, u32, u32) {
        let (row, page, step) = match (self.page, self.number) {
            (Some(page), 12) => (6, page, 1),
            (Some(page), 6) => (6, page, 2),
            (Some(page), 13) => (6, page, 3),
            (_, number) => (number, 0, 0),
        };
        (row, page, step, self.place)
    }

    /// The job with this fault.
    pub fn apply(&self, job: &[u8]) -> Vec<u8> {
        let mut damaged = job.to_vec();
        for (place, byte) in &self.edits {
            if let Some(old) = damaged.get_mut(*place) {
                *old = *byte;
            }
        }
        damaged.resize(self.length.unwrap_or(damaged.len()), 0xa5);
        damaged
    }

    /// Whether both faults can be in one job. Two of row 7 can undo each other
    /// or move the lowest place (two pages that exchange their patterns).
    pub fn stands_beside(&self, other: &Fault) -> bool {
        !self.overlaps(other) && (self.number, other.number) != (7, 7)
    }

    /// Whether both faults write the same byte, so that only one would stay.
    fn overlaps(&self, other: &Fault) -> bool {
        let written = |place: usize| other.edits.iter().any(|(there, _)| *there == place);
        self.edits.iter().any(|(place, _)| written(*place))
            || (self.length.is_some() && other.length.is_some())
    }
}

/// A job to be damaged: its bytes with what they mean.
struct Target {
    job: Job,
    counts: Counts,
    layout: Layout,
}

/// A fault with one of [`NUMBERS`], if this sound job can have one: a job with
/// no turns has no turn to spoil.
pub fn fault(random: &mut Random, job: &Job, number: u32) -> Option<Fault> {
    let counts = job.counts();
    let target = Target {
        layout: counts.layout(),
        job: job.clone(),
        counts,
    };
    match number {
        1 => Some(short(random)),
        2 => Some(version(random)),
        3 => Some(limit(random, &target)),
        4 => Some(offset(random, &target)),
        5 => Some(entry(random, &target)),
        6 => Some(damage_pages::some_count(random, job)),
        7 => owner(random, &target),
        8 => damage_records::some_record(random, job),
        9 => operation(random, &target),
        10 => turn(random, &target),
        12 => damage_pages::some_depth_or_pattern(random, job),
        13 => damage_pages::some_byte(random, job),
        _ => panic!("no row {number} of the job"),
    }
}

/// Random edits, cuts and additions.
pub fn scribble(random: &mut Random, job: &[u8]) -> Vec<u8> {
    let mut damaged = job.to_vec();
    for _ in 0..random.between(1, 4) {
        let place = some_place(random, &damaged);
        damaged[place] = match random.below(3) {
            0 => random.bits() as u8,
            1 => damaged[place] ^ (1 << random.below(8)),
            _ => random.below(4) as u8,
        };
    }
    match random.below(10) {
        0 => damaged.truncate(random.below(damaged.len() + 1)),
        1 => damaged.resize(damaged.len() + random.between(1, 9), 0),
        _ => {}
    }
    damaged
}

/// A place to scribble at: among the first bytes, where most rows look; or
/// anywhere; or at a byte in use, since most bytes of a job are zeros that
/// must stay zero, and those say little about the later rows.
fn some_place(random: &mut Random, job: &[u8]) -> usize {
    let anywhere = random.below(job.len());
    let in_use = |place: &usize| job[*place] != 0;
    match random.below(4) {
        0 => random.below(job.len().min(64)),
        1 => anywhere,
        _ => (anywhere..job.len()).find(in_use).unwrap_or(anywhere),
    }
}

/// The edits that write a number of so many bytes.
pub(crate) fn write(place: usize, number: usize, bytes: usize) -> Vec<(usize, u8)> {
    let byte = |step: usize| (place + step, (number >> (8 * step)) as u8);
    (0..bytes).map(byte).collect()
}

fn short(random: &mut Random) -> Fault {
    let length = random.below(HEADER_LENGTH);
    Fault {
        length: Some(length),
        ..Fault::new(1, length, Vec::new())
    }
}

fn version(random: &mut Random) -> Fault {
    let number = random.one_of(&[0, 1, 3, 256, 258, 512, 65_535]);
    Fault::new(2, 0, write(0, number, 2))
}

fn limit(random: &mut Random, target: &Target) -> Fault {
    let above = random.percent(60);
    let mut outside = |lowest: usize, highest: usize, most: usize| {
        if lowest > 0 && !above {
            lowest - 1
        } else if random.percent(50) {
            highest + 1
        } else {
            random.between(highest + 1, most)
        }
    };
    let fields = [
        (2, 1, outside(0, MAX_DEPTH, 255)),
        (3, 1, outside(1, MAX_CAPACITY, 255)),
        (4, 2, outside(1, MAX_PAGES, 65_535)),
        (6, 2, outside(1, target.counts.pages, 65_535)),
        (8, 2, outside(0, MAX_OPERATIONS, 65_535)),
        (10, 2, outside(0, MAX_TURNS, 65_535)),
    ];
    let (place, bytes, value) = random.one_of(&fields);
    Fault::new(3, place, write(place, value, bytes))
}

fn offset(random: &mut Random, target: &Target) -> Fault {
    let Layout {
        directory,
        pages,
        operations,
        turns,
        total,
    } = target.layout;
    let fields = [
        (12, directory),
        (16, pages),
        (20, operations),
        (24, turns),
        (28, total),
    ];
    let length = match random.below(7) {
        0 => random.between(HEADER_LENGTH, total - 1),
        1 => total + random.between(1, 40),
        _ => {
            let (place, value) = random.one_of(&fields);
            let wrong = random.one_of(&[value - 1, value + 1, 0, value + (1 << 24)]);
            return Fault::new(4, place, write(place, wrong, 4));
        }
    };
    Fault {
        length: Some(length),
        ..Fault::new(4, 28, Vec::new())
    }
}

fn entry(random: &mut Random, target: &Target) -> Fault {
    let place = entry_place(&target.counts, random.below(1 << target.counts.depth));
    let above = target.counts.in_use + 1;
    let far = random.between(above, 65_535);
    let wrong = random.one_of(&[0, above, far]);
    Fault::new(5, place, write(place, wrong, 2))
}

/// Faults of row 7 by an entry, or by a page with another depth or pattern.
fn owner(random: &mut Random, target: &Target) -> Option<Fault> {
    if random.percent(40) {
        owner_by_entry(random, target)
    } else {
        owner_by_page(random, target)
    }
}

fn owner_by_entry(random: &mut Random, target: &Target) -> Option<Fault> {
    let file = &target.job.file;
    let j = random.below(file.directory.len());
    let other = random.between(1, file.in_use);
    let place = entry_place(&target.counts, j);
    let wrong = Fault::new(7, place, write(place, other, 2));
    (other != file.directory[j]).then_some(wrong)
}

fn owner_by_page(random: &mut Random, target: &Target) -> Option<Fault> {
    let file = &target.job.file;
    let number = random.between(1, file.in_use);
    let page = file.page(number);
    let (depth, pattern) = (page.depth, page.pattern);
    let bit = random.below(2) as u32;
    let (new_depth, new_pattern, j) = match random.below(3) {
        // Shallower: it takes its other half's entries as well.
        0 if depth > 0 => {
            let sibling = first_entry(depth, pattern ^ 1, file.depth);
            (depth - 1, pattern / 2, sibling)
        }
        // Deeper: it no longer begins one half of its entries.
        1 if depth < file.depth => {
            let lost = first_entry(depth + 1, 2 * pattern + 1 - bit, file.depth);
            (depth + 1, 2 * pattern + bit, lost)
        }
        // Another pattern: it loses its own entries and takes another's.
        2 if depth > 0 => {
            let moved = pattern ^ random.between(1, (1 << depth) - 1) as u32;
            let (lost, taken) = (
                first_entry(depth, pattern, file.depth),
                first_entry(depth, moved, file.depth),
            );
            (depth, moved, lost.min(taken))
        }
        _ => return None,
    };
    let place = page_place(&target.counts, number);
    let mut edits = write(place, new_depth as usize, 1);
    edits.extend(write(place + 2, new_pattern as usize, 2));
    Some(Fault::new(7, entry_place(&target.counts, j), edits))
}

/// The lowest entry that a pattern begins.
fn first_entry(depth: u32, pattern: u32, global: u32) -> usize {
    (pattern << (global - depth)) as usize
}

fn operation(random: &mut Random, target: &Target) -> Option<Fault> {
    if target.counts.operations == 0 {
        return None;
    }
    let i = random.below(target.counts.operations);
    let place = target.layout.operations + OPERATION_LENGTH * i;
    let Operation { kind, charge, .. } = target.job.operations[i];
    let edit = match random.below(3) {
        0 => (place, random.one_of(&[0, 4, 5, 128, 255])),
        1 => (place + 1, random.nonzero_byte()),
        _ if kind == Kind::Search => (place + random.between(6, 9), random.nonzero_byte()),
        // An insert or a delete with a charge, made a search.
        _ if charge != 0 => (place, Kind::Search.number()),
        _ => return None,
    };
    Some(Fault::new(9, place, vec![edit]))
}

fn turn(random: &mut Random, target: &Target) -> Option<Fault> {
    if target.counts.turns == 0 {
        return None;
    }
    let place = target.layout.turns + TURN_LENGTH * random.below(target.counts.turns);
    let m = target.counts.operations;
    let far = random.between(m, 65_535);
    let wrong = random.one_of(&[m, far, 65_535]);
    Some(Fault::new(10, place, write(place, wrong, 2)))
}
