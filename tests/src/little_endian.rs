//! "Numbers are little-endian." Reading and writing them in one place.

/// The 2-byte number at a place.
pub fn two_at(bytes: &[u8], place: usize) -> usize {
    usize::from(bytes[place]) + 256 * usize::from(bytes[place + 1])
}

/// The 4-byte number at a place.
pub fn four_at(bytes: &[u8], place: usize) -> u32 {
    (0..4).rev().fold(0, |number, step| {
        number * 256 + u32::from(bytes[place + step])
    })
}

/// Appends a 2-byte number. A number that does not fit is a mistake in this
/// crate, so it stops the test instead of losing its upper part.
pub fn push_two(bytes: &mut Vec<u8>, number: usize) {
    let number = u16::try_from(number).expect("number fits in two bytes");
    bytes.extend(number.to_le_bytes());
}

/// Appends a 4-byte number.
pub fn push_four(bytes: &mut Vec<u8>, number: u32) {
    bytes.extend(number.to_le_bytes());
}

/// Appends an offset or a total, which take 4 bytes.
pub fn push_offset(bytes: &mut Vec<u8>, offset: usize) {
    push_four(
        bytes,
        u32::try_from(offset).expect("offset fits in four bytes"),
    );
}
