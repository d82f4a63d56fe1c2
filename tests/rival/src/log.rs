//! The log's lines, by moment and then operation.

use crate::operation::Row;

/// The lines as they are written, a line whenever a moment is known. Most come in order, and then nothing is left to sort.
pub struct Log<'a> {
    lines: &'a mut [[u8; 4]],
    count: usize,
    last: u32,
    in_order: bool,
}

impl Log<'_> {
    #[inline(always)]
    pub fn new(lines: &mut [[u8; 4]]) -> Log<'_> {
        Log {
            lines,
            count: 0,
            last: 0,
            in_order: true,
        }
    }

    #[inline(always)]
    pub fn add(&mut self, moment: u16, operation: usize) {
        let key = (moment as u32) << 16 | operation as u32;
        self.in_order &= key >= self.last;
        self.last = key;
        self.lines[self.count] = key.rotate_left(16).to_le_bytes();
        self.count += 1;
    }

    /// Sorts the lines, and gives their number.
    #[inline(always)]
    pub fn finish(self, rows: &[Row]) -> usize {
        if !self.in_order {
            sort(&mut self.lines[..self.count], rows);
        }
        self.count
    }
}

/// By insertion, or by counting where that moves too many lines.
#[inline(never)]
fn sort(lines: &mut [[u8; 4]], rows: &[Row]) {
    let key = |line: [u8; 4]| u32::from_le_bytes(line).rotate_left(16);
    let most = 4 * lines.len() + 64;
    let mut moved = 0;
    for k in 1..lines.len() {
        let line = lines[k];
        let mut place = k;
        while place > 0 && key(lines[place - 1]) > key(line) {
            lines[place] = lines[place - 1];
            place -= 1;
        }
        lines[place] = line;
        moved += k - place;
        if moved >= most {
            return sort_by_counting(lines, rows);
        }
    }
}

/// From the rows, which stand by operation: by the low 7 bits of the moment, then by the high 7. Counts and places are bytes: the count of
/// 256 lines in one group wraps to 0, but then there is no line in a later group whose place it would make wrong.
fn sort_by_counting(lines: &mut [[u8; 4]], rows: &[Row]) {
    let (mut low, mut high) = ([0u8; 128], [0u8; 128]);
    let answered = || rows.iter().enumerate().filter(|(_, row)| row.code != 0);
    for (_, row) in answered() {
        let moment = row.moment as usize;
        low[moment & 127] = low[moment & 127].wrapping_add(1);
        high[moment >> 7 & 127] = high[moment >> 7 & 127].wrapping_add(1);
    }
    first_places(&mut low);
    first_places(&mut high);
    let mut by_low = [0u32; 256];
    for (i, row) in answered() {
        let place = &mut low[row.moment as usize & 127];
        by_low[*place as usize] = (i as u32) << 16 | row.moment as u32;
        *place = place.wrapping_add(1);
    }
    for line in &by_low[..lines.len()] {
        let place = &mut high[*line as usize >> 7 & 127];
        lines[*place as usize] = line.to_le_bytes();
        *place = place.wrapping_add(1);
    }
}

/// Turns the counts of groups into the places of their first lines.
fn first_places(groups: &mut [u8; 128]) {
    let mut place = 0u8;
    for group in groups {
        (*group, place) = (place, place.wrapping_add(*group));
    }
}
