//! The refusal table once more, by brute force: every fault of a job is
//! collected, and the one that none goes before is the refusal. Patterns are
//! compared as texts of 0 and 1, and pseudo keys reckoned by sums, so that no
//! shift, mask or product is shared with the other checker.

/// A refusal: number and place.
pub type Refusal = (u32, u32);

/// The refusal of a job by its bytes.
pub fn first_fault(job: &[u8]) -> Option<Refusal> {
    let earlier = |one, other| {
        if goes_before(job, other, one) {
            other
        } else {
            one
        }
    };
    all_faults(job).into_iter().reduce(earlier)
}

/// Whether the check meets one fault of a job before another. Numbers rise, and
/// those of a page all rank as 6; among them a page in front goes first whatever
/// its number. In a page 12 goes before all and 13 behind all.
fn goes_before(job: &[u8], one: Refusal, other: Refusal) -> bool {
    let of_a_page = |(number, _): Refusal| [6, 12, 13].contains(&number);
    let rank = |fault: Refusal| if of_a_page(fault) { 6 } else { fault.0 };
    if rank(one) != rank(other) {
        return rank(one) < rank(other);
    }
    if of_a_page(one) {
        let [page, other_page] = [one, other].map(|(_, place)| pages_before(job, place));
        if page != other_page {
            return page < other_page;
        }
        if one.0 != other.0 {
            return one.0 == 12 || other.0 == 13;
        }
    }
    one.1 < other.1
}

/// How many whole pages lie before a place of the page table.
fn pages_before(job: &[u8], place: u32) -> usize {
    (place as usize - Sections::of(job).0[1]) / page_length(job)
}

/// All faults that can be told apart. A later section has no place before the
/// header is sound, and an entry has no page before entries and pages are.
pub fn all_faults(job: &[u8]) -> Vec<Refusal> {
    if job.len() < 32 {
        return vec![(1, job.len() as u32)];
    }
    let mut faults = header_faults(job);
    if faults.is_empty() {
        let sections = Sections::of(job);
        faults.extend(entry_faults(job, &sections));
        faults.extend(page_faults(job, &sections));
        if faults.is_empty() {
            faults.extend(owner_faults(job, &sections));
            faults.extend(record_faults(job, &sections));
        }
        faults.extend(operation_faults(job, &sections));
        faults.extend(turn_faults(job, &sections));
    }
    faults
}

fn number(job: &[u8], place: usize, width: usize) -> usize {
    let bytes = &job[place..place + width];
    let worth = |(step, byte): (usize, &u8)| 256usize.pow(step as u32) * usize::from(*byte);
    bytes.iter().enumerate().map(worth).sum()
}

fn header_faults(job: &[u8]) -> Vec<Refusal> {
    let mut faults = Vec::new();
    if job[..2] != [2, 0] {
        faults.push((2, 0));
    }
    let page_count = number(job, 4, 2);
    for (place, width, least, most) in [
        (2, 1, 0, 8),
        (3, 1, 1, 8),
        (4, 2, 1, 256),
        (6, 2, 1, page_count),
        (8, 2, 0, 256),
        (10, 2, 0, 16_384),
    ] {
        let value = number(job, place, width);
        if value < least || value > most {
            faults.push((3, place as u32));
        }
    }
    if faults.is_empty() {
        let sections = Sections::of(job);
        for (step, offset) in sections.0.iter().enumerate() {
            let place = 12 + 4 * step;
            if number(job, place, 4) != *offset {
                faults.push((4, place as u32));
            }
        }
        if job.len() != sections.0[4] {
            faults.push((4, 28));
        }
    }
    faults
}

/// The offsets of the four sections, and the total.
struct Sections([usize; 5]);

impl Sections {
    fn of(job: &[u8]) -> Sections {
        let entries = (0..job[2]).fold(1, |entries, _| entries + entries);
        let lengths = [
            2 * entries,
            number(job, 4, 2) * page_length(job),
            10 * number(job, 8, 2),
            2 * number(job, 10, 2),
        ];
        let mut offsets = [32; 5];
        for (step, length) in lengths.iter().enumerate() {
            offsets[step + 1] = offsets[step] + length;
        }
        Sections(offsets)
    }

    /// The places of the rows of a section.
    fn rows(&self, section: usize, length: usize) -> impl Iterator<Item = usize> {
        (self.0[section]..self.0[section + 1]).step_by(length)
    }
}

fn page_length(job: &[u8]) -> usize {
    4 + 8 * usize::from(job[3])
}

fn in_use(job: &[u8]) -> usize {
    number(job, 6, 2)
}

/// The places of the pages in use.
fn pages(job: &[u8], sections: &Sections) -> Vec<usize> {
    let rows = sections.rows(1, page_length(job));
    rows.take(in_use(job)).collect()
}

/// A number as a text of so many bits.
fn bits(number: usize, count: usize) -> String {
    let bit = |position: usize| char::from(b'0' + (number / 2usize.pow(position as u32) % 2) as u8);
    (0..count).rev().map(bit).collect()
}

/// A page's pattern as a text.
fn pattern(job: &[u8], page: usize) -> String {
    bits(number(job, page + 2, 2), usize::from(job[page]))
}

fn entry_faults(job: &[u8], sections: &Sections) -> Vec<Refusal> {
    let wrong = |place: &usize| {
        let entry = number(job, *place, 2);
        entry == 0 || entry > in_use(job)
    };
    let places = sections.rows(0, 2).filter(wrong);
    places.map(|place| (5, place as u32)).collect()
}

fn page_faults(job: &[u8], sections: &Sections) -> Vec<Refusal> {
    let mut faults = Vec::new();
    let length = page_length(job);
    for (before, place) in sections.rows(1, length).enumerate() {
        let page = &job[place..place + length];
        let mut should_be_zero = 0..length;
        if before < in_use(job) {
            faults.extend(field_faults(job, place));
            should_be_zero.start = 4 + 8 * usize::from(page[1]);
        }
        let not_zero = should_be_zero.filter(|at| page[*at] != 0);
        faults.extend(not_zero.map(|at| (13, (place + at) as u32)));
    }
    faults
}

/// Faults of the depth, the pattern and the count of a page in use.
fn field_faults(job: &[u8], page: usize) -> Vec<Refusal> {
    let mut faults = Vec::new();
    let pattern = bits(number(job, page + 2, 2), 16);
    if job[page] > job[2] {
        faults.push((12, page as u32));
    }
    if pattern.trim_start_matches('0').len() > usize::from(job[page]) {
        faults.push((12, page as u32 + 2));
    }
    if job[page + 1] > job[3] {
        faults.push((6, page as u32));
    }
    faults
}

fn owner_faults(job: &[u8], sections: &Sections) -> Vec<Refusal> {
    let mut faults = Vec::new();
    let pages = pages(job, sections);
    let patterns: Vec<String> = pages.iter().map(|page| pattern(job, *page)).collect();
    for (j, place) in sections.rows(0, 2).enumerate() {
        let index = bits(j, usize::from(job[2]));
        let owns = |page: &usize| index.starts_with(&patterns[page - 1]);
        let owners: Vec<usize> = (1..=pages.len()).filter(owns).collect();
        if owners != [number(job, place, 2)] {
            faults.push((7, place as u32));
        }
    }
    faults
}

fn record_faults(job: &[u8], sections: &Sections) -> Vec<Refusal> {
    let mut faults = Vec::new();
    for page in pages(job, sections) {
        let mut earlier = Vec::new();
        for k in 0..usize::from(job[page + 1]) {
            let place = page + 4 + 8 * k;
            let call = number(job, place, 4);
            if record_is_wrong(call, &earlier, &pattern(job, page)) {
                faults.push((8, place as u32));
            }
            earlier.push(call);
        }
    }
    faults
}

/// The three sentences of row 8 about a call, each asked by itself, with the
/// calls that are earlier in its page.
fn record_is_wrong(call: usize, earlier: &[usize], pattern: &str) -> bool {
    let not_begun = !bits(pseudo_key(call), 32).starts_with(pattern);
    let not_above = earlier.last().is_some_and(|before| call <= *before);
    not_begun || not_above || earlier.contains(&call)
}

/// FNV-1a by sums alone. The factor 16777619 is 1 0000 0000 0000 0001 1001 0011 as
/// bits, so the product is what the key comes to when it is doubled 24, 8, 7, 4, 1
/// and no times; what goes beyond 2^32 falls away.
fn pseudo_key(call: usize) -> usize {
    let doubled = |key: usize, times: u32| key * 2usize.pow(times);
    [1, 256, 65_536, 16_777_216]
        .into_iter()
        .fold(2_166_136_261, |key, worth| {
            let mixed = exclusive_or(key, call / worth % 256);
            let product: usize = [24, 8, 7, 4, 1, 0]
                .map(|times| doubled(mixed, times))
                .iter()
                .sum();
            product % 4_294_967_296
        })
}

/// With each bit of the byte that is 1, a number loses its own such bit if it has
/// it, and gains it if not.
fn exclusive_or(number: usize, byte: usize) -> usize {
    (0..8)
        .map(|position| 2usize.pow(position))
        .fold(number, |sum, worth| {
            match (sum / worth % 2, byte / worth % 2) {
                (1, 1) => sum - worth,
                (0, 1) => sum + worth,
                _ => sum,
            }
        })
}

fn operation_faults(job: &[u8], sections: &Sections) -> Vec<Refusal> {
    let wrong = |place: &usize| {
        let row = &job[*place..place + 10];
        // inserts and deletes have a charge of their own; a search has none
        let must_be_zero = if row[0] == 1 { 6..10 } else { 1..2 };
        !matches!(row[0], 1..=3) || row[1] != 0 || row[must_be_zero].iter().any(|byte| *byte != 0)
    };
    let places = sections.rows(2, 10).filter(wrong);
    places.map(|place| (9, place as u32)).collect()
}

fn turn_faults(job: &[u8], sections: &Sections) -> Vec<Refusal> {
    let wrong = |place: &usize| number(job, *place, 2) >= number(job, 8, 2);
    let places = sections.rows(3, 2).filter(wrong);
    places.map(|place| (10, place as u32)).collect()
}
