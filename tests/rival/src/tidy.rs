//! Tidying: pages that can be joined are joined, and the charge file is written anew. One pass over the pages counts the records under every pattern,
//! which settles the pages left: the highest patterns under which a page's worth of records lies. Each is then written straight to its place, in the
//! order of entries.

use crate::bytes::two_at;
use crate::check::accepted;
use crate::header::{by_length, Header, HEADER_LENGTH};
use crate::page::{self, record};
use crate::Refusal;

/// How many records lie under each pattern; 255 stands for all that are more. A pattern is numbered with a 1 before its bits, so that those of every
/// length have numbers of their own: 1 is the one of no bits, and n with one bit more is 2n or 2n + 1.
type Under = [u8; 512];

/// Tidies a charge file at a wanted depth: gives the length of what is written, or the refusal.
pub fn tidy(file: &[u8], depth: u64, out: &mut [u8]) -> Result<usize, Refusal> {
    let header = accepted(file)?;
    if header.operations > 0 {
        return Err((18, 8));
    }
    by_length!(header.capacity, tidy_sized, file, &header, depth, out)
}

#[inline(never)]
fn tidy_sized<const N: usize>(
    file: &[u8],
    header: &Header,
    depth: u64,
    out: &mut [u8],
) -> Result<usize, Refusal> {
    let source = Source::<N> {
        depth: header.depth,
        directory: file[HEADER_LENGTH..header.table_at()].as_chunks().0,
        pages: file[header.table_at()..][..N * header.in_use].as_chunks().0,
    };
    let under = source.records_under();
    // each pattern with too many records has two halves, and one more than there are such patterns is left
    let parted = |node: &usize| under[*node] as usize > page::room::<N>();
    let (mut in_use, mut deepest) = (1, 0);
    for node in (1..1 << header.depth & 511).filter(parted) {
        in_use += 1;
        deepest = bits(node) as u64 + 1;
    }
    if depth > 8 || depth < deepest {
        return Err((19, 0));
    }
    let tidied = Header {
        depth: depth as u32,
        in_use,
        ..*header
    };
    let out = out.get_mut(..tidied.total()).ok_or((11, 0))?;
    tidied.write(out);
    let (directory, table) = out[HEADER_LENGTH..].split_at_mut(2 * tidied.entries());
    let (used, unused) = table.split_at_mut(N * in_use);
    let entries = directory.as_chunks_mut().0;
    source.write_pages(&under, tidied.depth, entries, used.as_chunks_mut().0);
    unused.fill(0);
    Ok(tidied.total())
}

/// How many bits the pattern with this number has.
#[inline(always)]
fn bits(node: usize) -> u32 {
    63 - node.leading_zeros()
}

/// The file that is tidied.
struct Source<'a, const N: usize> {
    depth: u32,
    directory: &'a [[u8; 2]],
    pages: &'a [[u8; N]],
}

impl<const N: usize> Source<'_, N> {
    /// No page's pattern begins another's, so below a page there is nothing.
    #[inline(always)]
    fn records_under(&self) -> Under {
        let mut under = [0u8; 512];
        for page in self.pages {
            let node = 1 << (page[0] & 15) | two_at(page, 2) as usize;
            under[node & 511] = page[1];
        }
        for node in (1..1 << self.depth).rev() {
            let halves = under[2 * node & 511].saturating_add(under[(2 * node + 1) & 511]);
            under[node & 511] = under[node & 511].saturating_add(halves);
        }
        under
    }

    /// From the pattern of no bits on: one with too many records is passed over for the first of its halves, and behind one that is left comes the next
    /// that it does not begin.
    #[inline(always)]
    fn write_pages(
        &self,
        under: &Under,
        depth: u32,
        mut entries: &mut [[u8; 2]],
        pages: &mut [[u8; N]],
    ) {
        let (mut node, mut from) = (1, self.directory);
        for (x, page) in pages.iter_mut().enumerate() {
            while under[node & 511] as usize > page::room::<N>() {
                node *= 2;
            }
            let (own, rest) = entries.split_at_mut(1 << (depth - bits(node)));
            own.fill((x as u16 + 1).to_le_bytes());
            entries = rest;
            let (own, rest) = from.split_at(1 << (self.depth - bits(node)));
            self.write_page(page, node, own);
            from = rest;
            node += 1;
            node >>= node.trailing_zeros();
        }
    }

    /// The page that has these entries: the file's own, or its parts joined.
    #[inline(always)]
    fn write_page(&self, out: &mut [u8; N], node: usize, mut entries: &[[u8; 2]]) {
        let (first, length) = self.named(entries);
        if length == entries.len() {
            *out = *first;
            return;
        }
        let pattern = (node ^ 1 << bits(node)) as u16;
        *out = [0; N];
        out[0] = bits(node) as u8;
        out[2..4].copy_from_slice(&pattern.to_le_bytes());
        while !entries.is_empty() {
            let (part, length) = self.named(entries);
            for i in 0..(part[1] as usize).min(page::room::<N>()) {
                page::insert(out, record(part, i));
            }
            entries = &entries[length..];
        }
    }

    /// The page that the first of these entries names, and how many name it.
    #[inline(always)]
    fn named(&self, entries: &[[u8; 2]]) -> (&[u8; N], usize) {
        let page = &self.pages[u16::from_le_bytes(entries[0]) as usize - 1];
        (page, 1 << (self.depth - page[0] as u32))
    }
}
