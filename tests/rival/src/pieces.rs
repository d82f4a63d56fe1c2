//! What the splits of a full page leave: pieces, each worked out from the old page alone on the turn that writes it. Nobody else writes
//! the old page meanwhile, since it is locked.
//!
//! Each split cuts the page that would take the call, by the next bit: the page that is split keeps bit 0, a new page gets bit 1. All records go
//! along with the call up to the last split, which is the first to part them: of the pieces two have records, and the others are empty.

use crate::page::{put_record, record, room};

/// A piece. `holds`: which records of the old page it has, a bit for each. `own`: it is the page that the call goes to.
#[derive(Clone, Copy)]
pub struct Piece {
    depth: u32,
    pattern: u32,
    holds: u8,
    own: bool,
}

/// An insert into a full page of local depth `from`, with splits up to depth `end`.
#[derive(Clone, Copy)]
pub struct Splits {
    /// The call's own entry, and the directory's depth: of the pseudo key no more bits are needed than those of the entry's number.
    pub home: u32,
    pub global: u32,
    pub from: u32,
    pub end: u32,
    /// Which records of the old page go along with the call at the last split too, a bit for each.
    pub along: u8,
}

impl Splits {
    /// The first bits of the call's pseudo key, as many as `depth`.
    #[inline(always)]
    fn first_bits(self, depth: u32) -> u32 {
        self.home >> ((self.global - depth) & 31)
    }

    /// What is left of a page that would take the call at depth `from`. It keeps bit 0, so the call leaves it at its first bit 1.
    #[inline(always)]
    fn left(self, from: u32) -> Piece {
        let pattern = self.first_bits(self.end);
        let cut = pattern & ((1 << ((self.end - from) & 31)) - 1);
        if cut != 0 {
            return self.parted(self.end - 1 - cut.ilog2());
        }
        Piece {
            depth: self.end,
            pattern,
            holds: self.along,
            own: true,
        }
    }

    /// The half that the call does not go to, of a page of this depth.
    #[inline(always)]
    fn parted(self, depth: u32) -> Piece {
        let last = depth + 1 == self.end;
        Piece {
            depth: depth + 1,
            pattern: self.first_bits(depth + 1) ^ 1,
            holds: if last { !self.along } else { 0 },
            own: false,
        }
    }

    /// What is left of the old page.
    #[inline(always)]
    pub fn old_piece(self) -> Piece {
        self.left(self.from)
    }

    /// New page i, from 0: it gets bit 1 of split i. Where the call has that bit too, later splits cut it further.
    #[inline(always)]
    pub fn new_piece(self, i: u32) -> Piece {
        let depth = self.from + i;
        if self.first_bits(depth + 1) & 1 == 1 {
            self.left(depth + 1)
        } else {
            self.parted(depth)
        }
    }

    /// Which new page, from 0, an entry is to name, where it is not the old one. As far as its bits are the call's, each bit 1 leads on to a new page, and so
    /// does a bit 1 where they part: the last bit 1 up to there tells the page. `behind`: how many bits come after.
    #[inline(always)]
    pub fn new_page(self, entry: u8) -> u32 {
        let entry = entry as u32;
        let parted = (entry ^ self.home | 1).ilog2();
        let behind = parted.max(self.global - self.end);
        let last = (entry & u32::MAX << (behind & 31)).trailing_zeros();
        self.global - self.from - 1 - last
    }
}

impl Piece {
    /// The first entry behind those that the piece's pattern begins.
    #[inline(always)]
    pub fn next_entry(self, global: u32) -> u32 {
        (self.pattern + 1) << ((global - self.depth) & 31)
    }

    /// The piece's page: those records of the full old page that belong to it, in their order, and the insert's own at its place among
    /// them where it goes there. Each record is written at the end and counted only if it stays, which needs no jump; the insert's own goes in
    /// as in `page::insert`.
    #[inline(always)]
    pub fn cut<const N: usize>(self, old: &[u8; N], own: u64) -> [u8; N] {
        let mut stay = [0u64; 16];
        let mut count = 0;
        for i in 0..room::<N>() {
            stay[count & 15] = record(old, i);
            count += (self.holds >> i & 1) as usize;
        }
        let mut at = count;
        while self.own && at > 0 && stay[(at - 1) & 15] as u32 > own as u32 {
            stay[at & 15] = stay[(at - 1) & 15];
            at -= 1;
        }
        stay[at & 15] = if self.own { own } else { 0 };
        count += self.own as usize;
        let mut page = [0; N];
        page[0] = self.depth as u8;
        page[1] = count as u8;
        page[2] = self.pattern as u8;
        for (i, record) in stay.into_iter().take(room::<N>()).enumerate() {
            put_record(&mut page, i, record);
        }
        page
    }
}
