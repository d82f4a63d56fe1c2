//! Random charge files with thin pages, as deletes leave them: many pages for
//! few records. In the files of [`crate::make`] most pages have too few
//! neighbours, or too many records, to be joined more than once.

use crate::file::ChargeFile;
use crate::job::MAX_PAGES;
use crate::key;
use crate::make;
use crate::random::Random;

/// A thin file.
pub fn file(random: &mut Random) -> ChargeFile {
    let mut file = pages(random);
    scatter(random, &mut file);
    file
}

/// Many pages for their directory, no records yet. A large directory with all
/// its pages takes long to tidy by joining pair after pair, so it is rare.
fn pages(random: &mut Random) -> ChargeFile {
    let depth = match random.below(64) {
        0 => 8,
        1..=3 => random.between(6, 7),
        _ => random.between(1, 5),
    };
    let all = 1usize << depth;
    let page_count = match random.below(4) {
        0 => all,
        1 => (all + random.between(1, 5)).min(MAX_PAGES),
        _ => random.between(2, all),
    };
    let mut file = ChargeFile::empty(depth as u32, random.between(1, 8), page_count);
    let target = match random.below(3) {
        0 => page_count,
        _ => random.between(2, page_count),
    };
    make::grow(random, &mut file, target);
    if random.percent(80) {
        make::renumber(random, &mut file);
    }
    file
}

/// Puts records in some of the pages: in few of them, so that whole parts of
/// the directory come down to one page; in most, so that pairs come to just c
/// and just above it; or in none.
fn scatter(random: &mut Random, file: &mut ChargeFile) {
    let share = random.one_of(&[0, 5, 20, 50, 90]);
    let most = random.between(1, file.capacity);
    let variety = random.one_of(&[16, 1 << 20]);
    for number in 1..=file.in_use {
        if !random.percent(share) {
            continue;
        }
        let (depth, pattern) = (file.page(number).depth, file.page(number).pattern);
        let one_key = make::one_key_now_and_then(random, pattern, depth);
        for i in 0..random.between(1, most) {
            let rest = random.below(variety) as u32;
            let own = || key::call_with(pattern, depth, rest);
            let call = one_key.get(i).copied().unwrap_or_else(own);
            make::store(random, file, call);
        }
    }
}
