//! What the jobs of examples/ are made of: files with calls in their pages, and
//! rounds of turns.

use crate::file::ChargeFile;
use crate::page::Record;

/// A file whose pages in use are all of one local depth: page 1 has pattern 0,
/// page 2 pattern 1, and so on.
pub fn even_file(depth: u32, capacity: usize, page_count: usize, local: u32) -> ChargeFile {
    let pages: Vec<(u32, u32)> = (0..1 << local).map(|pattern| (local, pattern)).collect();
    parted_file(depth, capacity, page_count, &pages)
}

/// A file with these local depths and patterns: page 1 has the first, and so on.
pub fn parted_file(
    depth: u32,
    capacity: usize,
    page_count: usize,
    pages: &[(u32, u32)],
) -> ChargeFile {
    let mut file = ChargeFile::empty(depth, capacity, page_count);
    file.in_use = pages.len();
    for (x, &(local, pattern)) in pages.iter().enumerate() {
        file.pages[x].depth = local;
        file.pages[x].pattern = pattern;
        for j in (0..1 << depth).filter(|j| j >> (depth - local) == pattern) {
            file.directory[j as usize] = x + 1;
        }
    }
    file
}

/// The file with these calls and charges, each in its page.
pub fn filled(mut file: ChargeFile, calls: &[(u32, u32)]) -> ChargeFile {
    for &(call, charge) in calls {
        let number = file.page_of(call);
        *file.page_mut(number) = file.page(number).add(record(call, charge));
    }
    file
}

/// The file with each call from 1 on that its page still has room for, until every
/// page in use is full; and these calls, rising.
pub fn brimful(mut file: ChargeFile) -> (ChargeFile, Vec<u32>) {
    let mut calls = Vec::new();
    for call in 1.. {
        if calls.len() == file.in_use * file.capacity {
            break;
        }
        if file.page(file.page_of(call)).records.len() < file.capacity {
            file = filled(file, &[(call, 5 + 7 * call % 96)]);
            calls.push(call);
        }
    }
    (file, calls)
}

/// A call at a charge.
pub fn record(call: u32, charge: u32) -> Record {
    Record { call, charge }
}

/// So many rounds in which each operation takes one turn.
pub fn rounds(operations: &[usize], times: usize) -> Vec<usize> {
    operations.repeat(times)
}
