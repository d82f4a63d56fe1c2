//! Pages and splits on their own ("The file"; "Insert into a full page").

use chargefile_tests::key::{call_with, index};
use chargefile_tests::one_key::some_group_with;
use chargefile_tests::page::{page_length, Page, Record};
use chargefile_tests::random::Random;
use chargefile_tests::seeds::each_seed;
use chargefile_tests::split::{new_pages_needed, split, Full, Split};

const PAGES: u64 = 20_000;

/// A page with random records that belong in it; at times some of them have one
/// key, and the others share some bits beyond the pattern.
fn random_page(random: &mut Random, global: u32, count: usize) -> Page {
    let depth = random.below(global as usize + 1) as u32;
    let pattern = random.below(1 << depth) as u32;
    let mut page = Page {
        depth,
        pattern,
        records: Vec::new(),
    };
    let variety = random.one_of(&[16, 1 << 10, 1 << 24]);
    let deeper = random.below(global as usize - depth as usize + 1) as u32;
    let hot = random.word() & ((1 << deeper) - 1);
    let mut one_key = match random.below(5) {
        0 => some_group_with(random, pattern, depth),
        _ => Vec::new(),
    };
    while page.records.len() < count {
        let rest = random.below(variety) as u32;
        let own = || call_with(pattern << deeper | hot, depth + deeper, rest);
        let call = one_key.pop().unwrap_or_else(own);
        if page.find(call).is_none() {
            let charge = random.word();
            page = page.add(Record { call, charge });
        }
    }
    page
}

/// The records by rising call number, whatever order they come in.
fn rising(records: &[Record]) -> Vec<Record> {
    let mut sorted = records.to_vec();
    sorted.sort_by_key(|record| record.call);
    sorted
}

#[test]
fn find_add_and_remove() {
    each_seed(PAGES, |seed| {
        let random = &mut Random::new(seed, "pages");
        let capacity = random.between(1, 8);
        let count = random.below(capacity + 1);
        let page = random_page(random, 8, count);
        let bytes = page.to_bytes(capacity);
        assert_eq!(bytes.len(), page_length(capacity));
        assert_eq!(Page::from_bytes(&bytes), page);
        assert!(bytes[4 + 8 * count..].iter().all(|byte| *byte == 0));

        for (k, record) in page.records.iter().enumerate() {
            assert_eq!(page.find(record.call), Some(*record));
            let without = page.remove(record.call);
            assert_eq!(without.find(record.call), None);
            assert_eq!(without.records[..k], page.records[..k]);
            assert_eq!(without.records[k..], page.records[k + 1..]);
            assert_eq!(without.add(*record), page, "back at its place");
        }
    });
}

/// The order in which records come leaves no trace: they stand by rising call number.
#[test]
fn records_come_in_any_order() {
    let mut places = [0; 8];
    let whole = each_seed(PAGES, |seed| {
        let random = &mut Random::new(seed, "any order");
        let count = random.between(1, 8);
        let page = random_page(random, 8, count);
        let mut coming = page.records.clone();
        random.shuffle(&mut coming);
        let empty = Page {
            records: Vec::new(),
            ..page.clone()
        };
        let filled = coming.iter().fold(empty, |page, record| {
            let more = page.add(*record);
            let at = more.records.iter().position(|r| r == record);
            places[at.expect("the record is added")] += 1;
            more
        });
        assert_eq!(filled.records, rising(&coming));
        assert_eq!(filled, page);
    });
    if whole {
        println!("records added, by place: {places:?}");
        assert!(places.iter().all(|times| *times >= 300), "{places:?}");
    }
}

#[test]
fn the_shared_bits_settle_the_split() {
    let (mut by_number, mut no_depth, mut largest, mut before_another) = ([0; 9], 0, 0, 0);
    let whole = each_seed(PAGES, |seed| {
        let random = &mut Random::new(seed, "splits");
        let global = random.below(9) as u32;
        let capacity = random.between(1, 8);
        let mut page = random_page(random, global, capacity + 1);
        // One record too many: any of them is the one to be inserted.
        let record = page.records.remove(random.below(capacity + 1));
        let in_use = random.between(1, 200);
        let all_alike = |r: &Record| index(r.call, global) == index(record.call, global);
        let Some(needed) = new_pages_needed(&page, record.call, global) else {
            assert!(page.records.iter().all(all_alike), "no depth");
            no_depth += 1;
            return;
        };
        assert!(!page.records.iter().all(all_alike));
        let full = Full {
            number: random.between(1, in_use),
            page: &page,
            global,
            in_use,
        };
        let split = split(full, record, capacity);
        assert_eq!(split.new.len(), needed);
        assert!(needed <= (global - page.depth) as usize, "at most g - l");
        largest = largest.max(needed);
        by_number[needed] += 1;
        before_another += usize::from(split.home_page().records.last() != Some(&record));
        split_is_right(&full, record, capacity, &split);
    });
    if whole {
        println!("splits by new pages: {by_number:?}, no depth: {no_depth}");
        println!("put before another record: {before_another}");
        assert!(before_another >= 2_000, "only {before_another}");
        assert_eq!(largest, 8, "g - l with g 8 and l 0");
        assert!(no_depth >= 1_000 && by_number[1..=4].iter().all(|n| *n >= 500));
    }
}

/// What must hold of a split, without asking how it was worked out.
fn split_is_right(full: &Full, record: Record, capacity: usize, split: &Split) {
    let mut pages = vec![(full.number, &split.old)];
    pages.extend(split.new.iter().map(|(number, page)| (*number, page)));
    for (step, (number, _)) in split.new.iter().enumerate() {
        assert_eq!(*number, full.in_use + 1 + step, "in order of the splits");
    }
    let all = rising(&[&full.page.records[..], &[record]].concat());
    for (number, page) in &pages {
        assert!(page.records.len() <= capacity);
        // Each page has just the records its pattern asks for, by rising call.
        let mine = |r: &&Record| index(r.call, page.depth) == page.pattern as usize;
        let wanted: Vec<Record> = all.iter().filter(mine).copied().collect();
        assert_eq!(page.records, wanted);
        assert_eq!(*number == split.home, wanted.contains(&record));
    }
    for j in 0..1usize << full.global {
        let owners = pages
            .iter()
            .filter(|(_, page)| page.owns(j, full.global))
            .count();
        assert_eq!(owners, usize::from(full.page.owns(j, full.global)));
        let to = split.changed.iter().find(|(entry, _)| *entry == j);
        let moved = split.new.iter().find(|(_, page)| page.owns(j, full.global));
        assert_eq!(to.map(|(_, to)| to), moved.map(|(number, _)| number));
    }
    let rising = split.changed.windows(2).all(|pair| pair[0].0 < pair[1].0);
    assert!(rising, "by rising index");
}
