//! How many turns an operation can use ("A narrower count"; "Everyone gets
//! done"), and answers held to it.

use crate::job::{Job, Kind, MAX_DEPTH};

/// "No operation of an accepted job, whatever its list, uses more than 294
/// (depth 8)." No lower depth allows as many.
pub const AT_ANY_DEPTH: usize = 294;

pub const KINDS: [Kind; 3] = [Kind::Search, Kind::Insert, Kind::Delete];

/// "No search uses more than 2g + 3 turns, and no other operation more than
/// 2^g + 4g + 6 that are not waiting."
pub fn said(kind: Kind, depth: u32) -> usize {
    let g = depth as usize;
    match kind {
        Kind::Search => 2 * g + 3,
        Kind::Insert | Kind::Delete => (1 << g) + 4 * g + 6,
    }
}

/// The most that some list makes an operation use.
///
/// Whenever an entry changes, it goes to a page of greater local depth: so it
/// changes g times at most, and each time costs a search two turns more and the
/// others three. A delete uses six turns besides. So does an insert that needs no
/// split; one with a split uses seven, a turn for each new page and one for each
/// changed entry. If its entry has changed r times, the page has local depth r at
/// least, which leaves g - r new pages and 2^(g - r) - 1 entries: most of all for
/// r = 0. At depth 0 no page can be split.
pub fn reached(kind: Kind, depth: u32) -> usize {
    let g = depth as usize;
    match kind {
        Kind::Search => said(kind, depth),
        Kind::Insert if g > 0 => with_split(depth, 0),
        Kind::Insert | Kind::Delete => 3 * g + 6,
    }
}

/// What an insert uses whose entry changes so many times, fewer than g, and which
/// then splits its page as often as can be: 7 + 3r + (g - r) + (2^(g - r) - 1).
pub fn with_split(depth: u32, retries: u32) -> usize {
    let (g, r) = (depth as usize, retries as usize);
    (1 << (g - r)) + g + 2 * r + 6
}

/// Holds the turns that an operation has used to all the bounds.
pub fn within(kind: Kind, depth: u32, used: usize) {
    let bounds = [said(kind, depth), reached(kind, depth), AT_ANY_DEPTH];
    assert!(
        bounds.iter().all(|most| used <= *most),
        "{kind:?} at depth {depth} used {used} turns, bounds {bounds:?}"
    );
}

/// The answers that were held to the bounds: how many there were of each kind at
/// each depth, and the most turns that one of them had used.
#[derive(Clone, Debug, Default, PartialEq, Eq)]
pub struct Held([[(usize, usize); MAX_DEPTH + 1]; KINDS.len()]);

impl Held {
    fn hold(&mut self, kind: Kind, depth: u32, used: usize) {
        within(kind, depth, used);
        let row = &mut self.0[usize::from(kind.number()) - 1];
        let (answers, most) = &mut row[depth as usize];
        *answers += 1;
        *most = used.max(*most);
    }

    /// Holds the answers of a job.
    pub fn hold_all(&mut self, job: &Job, used: &[usize]) {
        assert_eq!(used.len(), job.operations.len(), "a count for each");
        for (operation, used) in job.operations.iter().zip(used) {
            self.hold(operation.kind, job.file.depth, *used);
        }
    }

    /// The most turns that an answer of this kind at this depth had used.
    pub fn most(&self, kind: Kind, depth: u32) -> usize {
        self.of(kind, depth).1
    }

    /// So many answers at least were held, of each kind at each of these depths.
    pub fn all_met(&self, depths: &[u32], least: usize) {
        println!(
            "answers and most turns used, by kind and depth: {:?}",
            self.0
        );
        for (kind, depth) in kinds_at(depths) {
            let (answers, _) = self.of(kind, depth);
            assert!(answers >= least, "{kind:?} at depth {depth}: {answers}");
        }
    }

    fn of(&self, kind: Kind, depth: u32) -> (usize, usize) {
        self.0[usize::from(kind.number()) - 1][depth as usize]
    }
}

/// All depths that there are.
pub const DEPTHS: [u32; MAX_DEPTH + 1] = [0, 1, 2, 3, 4, 5, 6, 7, 8];

/// Each kind at each of these depths.
pub fn kinds_at(depths: &[u32]) -> impl Iterator<Item = (Kind, u32)> + '_ {
    let each_kind = |depth: &u32| KINDS.map(|kind| (kind, *depth));
    depths.iter().flat_map(each_kind)
}
