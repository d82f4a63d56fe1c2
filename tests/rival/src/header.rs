//! A job's header: its counts, and where they put its sections.

use crate::bytes::two_at;

/// Of jobs, and of charge files, which are jobs.
pub const JOB_VERSION: u16 = 2;
pub const HEADER_LENGTH: usize = 32;
pub const OPERATION_LENGTH: usize = 10;
pub const TURN_LENGTH: usize = 2;

/// The counts, as they stand in the header. What is computed from them asks that they are within their limits.
#[derive(Clone, Copy)]
pub struct Header {
    pub depth: u32,
    pub capacity: usize,
    pub pages: usize,
    pub in_use: usize,
    pub operations: usize,
    pub turns: usize,
}

impl Header {
    #[inline(always)]
    pub fn read(bytes: &[u8; HEADER_LENGTH]) -> Header {
        Header {
            depth: bytes[2] as u32,
            capacity: bytes[3] as usize,
            pages: two_at(bytes, 4) as usize,
            in_use: two_at(bytes, 6) as usize,
            operations: two_at(bytes, 8) as usize,
            turns: two_at(bytes, 10) as usize,
        }
    }

    #[inline(always)]
    pub fn entries(&self) -> usize {
        1 << self.depth
    }

    #[inline(always)]
    pub fn page_length(&self) -> usize {
        4 + 8 * self.capacity
    }

    #[inline(always)]
    pub fn table_at(&self) -> usize {
        HEADER_LENGTH + 2 * self.entries()
    }

    /// Where the operations begin; a charge file, which has none, ends there.
    #[inline(always)]
    pub fn operations_at(&self) -> usize {
        self.table_at() + self.page_length() * self.pages
    }

    #[inline(always)]
    pub fn turns_at(&self) -> usize {
        self.operations_at() + OPERATION_LENGTH * self.operations
    }

    #[inline(always)]
    pub fn total(&self) -> usize {
        self.turns_at() + TURN_LENGTH * self.turns
    }

    /// The header's bytes.
    #[inline(always)]
    pub fn write(&self, out: &mut [u8]) {
        let head: &mut [u8; HEADER_LENGTH] = out.first_chunk_mut().unwrap();
        let counts = [self.pages, self.in_use, self.operations, self.turns];
        head[..2].copy_from_slice(&JOB_VERSION.to_le_bytes());
        head[2..4].copy_from_slice(&[self.depth as u8, self.capacity as u8]);
        for (k, count) in counts.into_iter().enumerate() {
            head[4 + 2 * k..][..2].copy_from_slice(&(count as u16).to_le_bytes());
        }
        let offsets = [
            HEADER_LENGTH,
            self.table_at(),
            self.operations_at(),
            self.turns_at(),
            self.total(),
        ];
        for (k, offset) in offsets.into_iter().enumerate() {
            head[12 + 4 * k..][..4].copy_from_slice(&(offset as u32).to_le_bytes());
        }
    }
}

/// Calls a function with the page length for its constant, so that the loops over a page's records are unrolled.
macro_rules! by_length {
    ($capacity:expr, $function:ident, $($argument:expr),*) => {
        match $capacity {
            1 => $function::<12>($($argument),*),
            2 => $function::<20>($($argument),*),
            3 => $function::<28>($($argument),*),
            4 => $function::<36>($($argument),*),
            5 => $function::<44>($($argument),*),
            6 => $function::<52>($($argument),*),
            7 => $function::<60>($($argument),*),
            _ => $function::<68>($($argument),*),
        }
    };
}
pub(crate) use by_length;
