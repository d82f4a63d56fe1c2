//! Numbers in bytes: little-endian.

/// The 2-byte number at a place.
#[inline(always)]
pub fn two_at(bytes: &[u8], place: usize) -> u16 {
    u16::from_le_bytes([bytes[place], bytes[place + 1]])
}

/// The 4-byte number at a place.
#[inline(always)]
pub fn four_at(bytes: &[u8], place: usize) -> u32 {
    u32::from_le_bytes([
        bytes[place],
        bytes[place + 1],
        bytes[place + 2],
        bytes[place + 3],
    ])
}
