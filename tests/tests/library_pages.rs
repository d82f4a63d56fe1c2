//! The library's page functions against the tests' own, on random pages of each capacity.

mod states;

use chargefile_tests::key::{call_with, neighbour};
use chargefile_tests::make;
use chargefile_tests::one_key::{others, some_group_with};
use chargefile_tests::page::{page_length, Page, Record};
use chargefile_tests::random::Random;
use chargefile_tests::seeds::{each_seed, few_seeds};
use chargefile_tests::split::{new_pages_needed, split, Full, Split};
use chargefile_tests::tally::all_seen;
use states::{among_all, calls_to_look_for, every_page, Seen};

const JOBS: u64 = 6_000;
const PAGES: u64 = 20_000;
const DEPTH: u32 = 8;

#[link(name = "probe", kind = "static")]
extern "C" {
    fn probe_find(page: *const u8, len: usize, number: u16, call: u32) -> u64;
    fn probe_add(page: *mut u8, len: usize, call: u32, charge: u32);
    fn probe_remove(page: *mut u8, len: usize, call: u32);
    fn probe_split_count(page: *const u8, len: usize, call: u32) -> usize;
    fn probe_write_old(page: *mut u8, len: usize, call: u32, charge: u32);
    fn probe_write_new(page: *mut u8, len: usize, i: usize, call: u32, charge: u32);
}

/// What the page functions ask: whole records, no more counted than there is room for.
fn sound(page: &[u8]) {
    assert!(page.len() >= 4 && (page.len() - 4) % 8 == 0);
    assert!(4 + 8 * usize::from(page[1]) <= page.len());
}

/// What looking into the page of this number says: the number of the page, and the charge if the call is there.
fn find(page: &[u8], number: u16, call: u32) -> (u64, Option<u64>) {
    const MISSING: u64 = 1 << 32;
    sound(page);
    // SAFETY: `sound` tests what the contract asks
    let said = unsafe { probe_find(page.as_ptr(), page.len(), number, call) };
    let charge = said % (2 * MISSING);
    (said / (2 * MISSING), (charge != MISSING).then_some(charge))
}

/// What it should say, where this is what the page has of the call.
fn said_of(number: u16, record: Option<Record>) -> (u64, Option<u64>) {
    (u64::from(number), record.map(|r| u64::from(r.charge)))
}

fn add(page: &mut [u8], r: Record) {
    sound(page);
    assert!(
        4 + 8 * usize::from(page[1]) < page.len(),
        "room for one more"
    );
    // SAFETY: as the lines above
    unsafe { probe_add(page.as_mut_ptr(), page.len(), r.call, r.charge) }
}

fn remove(page: &mut [u8], call: u32) {
    sound(page);
    // SAFETY: `sound` tests what the contract asks
    unsafe { probe_remove(page.as_mut_ptr(), page.len(), call) }
}

/// A page of the capacity with records that belong in it; at times some of them share many bits, some have one key, and some stand far apart.
fn random_page(random: &mut Random, capacity: usize, count: usize) -> Page {
    let depth = random.below(DEPTH as usize) as u32;
    let pattern = random.below(1 << depth) as u32;
    let deeper = random.below((DEPTH - depth) as usize + 1) as u32;
    let hot = random.word() & ((1 << deeper) - 1);
    let variety = random.one_of(&[1 << 12, 1 << 24]);
    let mut one_key = match random.below(5) {
        0 => some_group_with(random, pattern, depth),
        _ => Vec::new(),
    };
    let mut page = Page {
        depth,
        pattern,
        records: Vec::new(),
    };
    while page.records.len() < count.min(capacity) {
        let rest = random.below(variety) as u32;
        let own = || call_with(pattern << deeper | hot, depth + deeper, rest);
        let call = one_key.pop().unwrap_or_else(own);
        if page.find(call).is_none() {
            let charge = random.word();
            page = page.add(Record { call, charge });
        }
    }
    page
}

/// A call that the page does not have: any, one at the ends of all there are, or a neighbour of one that it has, so that it can belong at every place.
fn missing(random: &mut Random, page: &Page) -> u32 {
    let mut calls = vec![random.word(), u32::MAX];
    calls.extend(page.calls());
    loop {
        let step = random.one_of(&[0, 1, u32::MAX]);
        let call = random.one_of(&calls).wrapping_add(step);
        if page.records.iter().all(|record| record.call != call) {
            return call;
        }
    }
}

/// Runs a change inside a larger buffer and asks that nothing beside the page's bytes moved.
fn inside(bytes: &[u8], change: impl Fn(&mut [u8])) -> Vec<u8> {
    let mut buffer = vec![0xA5; 7];
    buffer.extend_from_slice(bytes);
    buffer.extend_from_slice(&[0xA5; 9]);
    let end = 7 + bytes.len();
    change(&mut buffer[7..end]);
    assert!(buffer[..7]
        .iter()
        .chain(&buffer[end..])
        .all(|byte| *byte == 0xA5));
    buffer[7..end].to_vec()
}

#[test]
fn find_add_and_remove() {
    let mut places = [0usize; 8];
    let whole = each_seed(PAGES, |seed| {
        let random = &mut Random::new(seed, "library pages");
        let capacity = random.between(1, 8);
        let count = random.below(capacity + 1);
        let page = random_page(random, capacity, count);
        let bytes = page.to_bytes(capacity);
        assert_eq!(bytes.len(), page_length(capacity));
        let others = [(); 4].map(|()| missing(random, &page));
        for call in page.calls().into_iter().chain(others) {
            let number = random.word() as u16;
            let wanted = said_of(number, page.find(call));
            assert_eq!(find(&bytes, number, call), wanted);
            let removed = inside(&bytes, |part| remove(part, call));
            assert_eq!(removed, page.remove(call).to_bytes(capacity));
        }
        for call in others.into_iter().filter(|_| count < capacity) {
            let charge = random.word();
            let r = Record { call, charge };
            let added = inside(&bytes, |part| add(part, r));
            assert_eq!(added, page.add(r).to_bytes(capacity));
            places[page.records.iter().filter(|held| held.call < call).count()] += 1;
        }
    });
    if whole {
        println!("records added, by place: {places:?}");
        assert!(places.iter().all(|times| *times >= 100), "{places:?}");
    }
}

/// Every page of every state: what is found is the one record of all that has the call.
#[test]
fn find_in_every_state() {
    let (mut found, mut none) = (0, 0);
    let whole = few_seeds(JOBS, |seed| {
        let job = make::small_job(&mut Random::new(seed, "library looking"));
        every_page(&job, |Seen { number, page, .. }| {
            let bytes = page.to_bytes(job.file.capacity);
            let number = *number as u16;
            for call in calls_to_look_for(&job, page) {
                let there = among_all(page, call);
                let wanted = said_of(number, there);
                let says = find(&bytes, number, call);
                assert_eq!(says, wanted, "{call} in {page:?}");
                found += usize::from(there.is_some());
                none += usize::from(there.is_none());
            }
        });
    });
    if whole {
        all_seen([("found", found, 50_000), ("none", none, 50_000)]);
    }
}

/// The library writes the old page and each new one as they are wanted, given the full page as it stands and a split of it.
fn written_as(wanted: &Split, page: &Page, record: Record) {
    let capacity = page.records.len();
    let bytes = page.to_bytes(capacity);
    let Record { call, charge } = record;
    // SAFETY, here and for the two below: the page is full and sound, and a new page is needed and possible
    let count = unsafe { probe_split_count(bytes.as_ptr(), bytes.len(), call) };
    assert_eq!(count, wanted.new.len());
    let old = inside(&bytes, |p| unsafe {
        probe_write_old(p.as_mut_ptr(), p.len(), call, charge)
    });
    assert_eq!(old, wanted.old.to_bytes(capacity));
    for (i, (_, new)) in wanted.new.iter().enumerate() {
        let written = inside(&bytes, |p| unsafe {
            probe_write_new(p.as_mut_ptr(), p.len(), i + 1, call, charge)
        });
        assert_eq!(written, new.to_bytes(capacity), "new page {}", i + 1);
    }
}

#[test]
fn splits_of_full_pages() {
    let (mut counts, mut before_another) = ([0usize; 9], 0);
    let whole = each_seed(PAGES, |seed| {
        let random = &mut Random::new(seed, "library splits");
        let capacity = random.between(1, 8);
        let page = random_page(random, capacity, capacity);
        let near = random.one_of(&page.records).call;
        let call = match (random.below(8), &others(near)[..]) {
            (0, of_its_key @ [_, ..]) => random.one_of(of_its_key),
            _ => neighbour(near, random.between(page.depth as usize, 12) as u32),
        };
        if page.find(call).is_some() {
            return;
        }
        let charge = random.word();
        let record = Record { call, charge };
        let Some(n) = new_pages_needed(&page, call, DEPTH) else {
            return;
        };
        let full = Full {
            number: 1,
            page: &page,
            global: DEPTH,
            in_use: 1,
        };
        let wanted = split(full, record, capacity);
        assert_eq!(wanted.new.len(), n);
        written_as(&wanted, &page, record);
        counts[n] += 1;
        before_another += usize::from(wanted.home_page().records.last() != Some(&record));
    });
    if whole {
        println!("splits by number of new pages: {counts:?}");
        println!("put before another record: {before_another}");
        assert!(before_another >= 2_000, "only {before_another}");
        assert!(counts[1..].iter().all(|count| *count > 0), "{counts:?}");
    }
}
