//! Jobs made to be measured.

use chargefile_tests::file::ChargeFile;
use chargefile_tests::job::{Job, Kind, Operation, MAX_OPERATIONS, MAX_PAGES, MAX_TURNS};
use chargefile_tests::key;
use chargefile_tests::page::{Page, Record};
use chargefile_tests::random::Random;
use chargefile_tests::run::Run;

/// A file whose pages in use all have the same local depth and number of records.
#[derive(Clone, Copy)]
pub struct Even {
    pub depth: u32,
    pub capacity: usize,
    pub pages: usize,
    pub local: u32,
    pub records: usize,
}

impl Even {
    /// A file of the largest kind.
    pub fn large(local: u32, records: usize) -> Even {
        Even {
            depth: 8,
            capacity: 8,
            pages: MAX_PAGES,
            local,
            records,
        }
    }

    /// The file, with the call of record i of the page that has a pattern.
    pub fn file_with(self, mut call: impl FnMut(u32, u32) -> u32) -> ChargeFile {
        let in_use = 1 << self.local;
        let mut pages = vec![Page::default(); self.pages];
        for (pattern, page) in (0..in_use as u32).zip(&mut pages) {
            (page.depth, page.pattern) = (self.local, pattern);
            for i in 0..self.records as u32 {
                let (call, charge) = (call(pattern, i), 7 * i + pattern);
                assert!(page.find(call).is_none(), "call {call} is there already");
                *page = page.add(Record { call, charge });
            }
        }
        ChargeFile {
            depth: self.depth,
            capacity: self.capacity,
            in_use,
            directory: (0..1 << self.depth)
                .map(|j| (j >> (self.depth - self.local)) + 1)
                .collect(),
            pages,
        }
    }

    pub fn file(self) -> ChargeFile {
        self.file_with(|pattern, i| held(pattern, self.local, i))
    }
}

/// The first call from a number on whose pseudo key begins with a pattern of so many bits. One call in 2^local does, so it is not far off.
pub fn call_from(pattern: u32, local: u32, number: u32) -> u32 {
    let belongs = |call: &u32| key::index(*call, local) == pattern as usize;
    let found = (number..=u32::MAX).find(belongs);
    found.expect("the number is not among the last")
}

/// The call of record i, from 0, of an even file's page. The calls rise with their records.
pub fn held(pattern: u32, local: u32, i: u32) -> u32 {
    call_from(pattern, local, (i + 1) << 24)
}

/// A call that belongs in the page and is missing: it goes behind the first i records.
pub fn missing(pattern: u32, local: u32, i: u32) -> u32 {
    call_from(pattern, local, i << 24 | 1 << 23)
}

/// A job with no turns.
pub fn without_turns(file: ChargeFile, operations: Vec<Operation>) -> Job {
    Job {
        file,
        operations,
        turns: Vec::new(),
    }
}

pub fn operation(kind: Kind, call: u32) -> Operation {
    let charge = match kind {
        Kind::Insert => 99,
        Kind::Search | Kind::Delete => 0,
    };
    Operation { kind, call, charge }
}

/// So many turns for each of m operations, dealt in rounds: each round in order, or shuffled.
pub fn rounds(m: usize, each: usize, mut shuffled: Option<&mut Random>) -> Vec<usize> {
    let mut order: Vec<usize> = (0..m).collect();
    let mut turns = Vec::new();
    for _ in 0..each {
        if let Some(random) = &mut shuffled {
            random.shuffle(&mut order);
        }
        turns.extend(&order);
    }
    turns
}

/// Many operations on few pages. Those not finished are dealt turns in shuffled rounds until all are: most turns wait.
pub fn contended() -> Job {
    let random = &mut Random::new(1, "contended");
    let file = Even {
        depth: 2,
        capacity: 8,
        pages: 4,
        local: 1,
        records: 4,
    }
    .file_with(|pattern, i| call_from(pattern, 1, 8 * i));
    let kinds = [Kind::Search, Kind::Insert, Kind::Insert, Kind::Delete];
    let any = |i: usize| operation(kinds[i % 4], random.below(32) as u32);
    let mut job = without_turns(file, (0..64).map(any).collect());
    let mut run = Run::new(&job);
    while run.unfinished().next().is_some() {
        let mut round: Vec<usize> = run.unfinished().collect();
        random.shuffle(&mut round);
        run.deal_all(&round);
        job.turns.extend(round);
    }
    assert!(run.waits > job.turns.len() / 2, "most turns wait");
    job
}

/// A job with as many entries, pages, operations and turns as can be, and otherwise another one for every seed. The turns go to a window of operations
/// that moves on from the first to the last. Most are of finished operations or wait: 256 operations have no use for 16,384 turns.
pub fn full(seed: u64) -> Job {
    let random = &mut Random::new(seed, "full jobs");
    let capacity = random.between(1, 8);
    let shape = Even {
        capacity,
        ..Even::large(random.below(7) as u32, random.below(capacity + 1))
    };
    let file =
        shape.file_with(|pattern, i| call_from(pattern, shape.local, i << 28 | random.word() >> 4));
    let held = file.holds();
    let operations = (0..MAX_OPERATIONS).map(|_| {
        let kinds = [Kind::Search, Kind::Insert, Kind::Insert, Kind::Delete];
        let call = match random.below(2) {
            0 if !held.is_empty() => random.one_of(&held).call,
            _ => random.below(4096) as u32,
        };
        operation(random.one_of(&kinds), call)
    });
    let mut job = without_turns(file, operations.collect());
    let width = random.one_of(&[8, 32, 128, MAX_OPERATIONS]);
    job.turns = (0..MAX_TURNS)
        .map(|t| t * (MAX_OPERATIONS - width + 1) / MAX_TURNS + random.below(width))
        .collect();
    job
}
