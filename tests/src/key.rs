//! Pseudo keys, directory indexes and shared leading bits ("The file"; "Call
//! numbers by line card").
//!
//! The pseudo key is reckoned in whole numbers with a remainder, and what is asked
//! of it goes bit by bit. The library has a helper that multiplies modulo 2^32,
//! counts the leading zeros of an exclusive-or and shifts; doing it the slow way
//! keeps the two apart.

/// How many bits a pseudo key has.
pub const KEY_BITS: u32 = 32;

/// "Start at 2166136261".
const START: u64 = 2_166_136_261;
/// "Times 16777619".
const TIMES: u64 = 16_777_619;
/// "Modulo 2^32".
const MODULO: u64 = 1 << KEY_BITS;

/// The highest byte of a call begins at this bit, and goes into the key last.
const HIGHEST_BYTE: u32 = 24;

/// "FNV-1a, 32 bits, as published: start at 2166136261, for each of the four
/// bytes, lowest first, exclusive-or, then times 16777619 modulo 2^32."
pub fn pseudo_key(call: u32) -> u32 {
    let taken_in = |key: u64, byte: u8| (key ^ u64::from(byte)) * TIMES % MODULO;
    call.to_le_bytes().into_iter().fold(START, taken_in) as u32
}

/// The bit of the call's pseudo key at a position counted from the front.
pub fn leading_bit(call: u32, position: u32) -> bool {
    bit_from_front(pseudo_key(call), position)
}

fn bit_from_front(key: u32, position: u32) -> bool {
    (key >> (KEY_BITS - 1 - position)) & 1 == 1
}

/// "Entry j belongs to the calls whose first g pseudo-key bits, read as a
/// number, are j."
pub fn index(call: u32, depth: u32) -> usize {
    let key = pseudo_key(call);
    (0..depth).fold(0, |j, position| {
        2 * j + usize::from(bit_from_front(key, position))
    })
}

/// "How many leading bits two pseudo keys share settles n." All 32, where two
/// calls have the same one.
pub fn shared_bits(one: u32, other: u32) -> u32 {
    let same = |position: &u32| bit_from_front(one, *position) == bit_from_front(other, *position);
    (0..KEY_BITS).take_while(same).count() as u32
}

/// Whether a pattern of `local` bits begins entry number `j` of a directory
/// with global depth `global` ("Refused jobs", row 7). A pattern of no bits
/// begins every entry.
pub fn begins(pattern: u32, local: u32, j: usize, global: u32) -> bool {
    local <= global && j >> (global - local) == pattern as usize
}

/// A call whose pseudo key begins with a pattern of `local` bits, at most 16.
/// Its three low bytes are those of `rest`, if with one of the 256 highest bytes
/// they will do; else those of a number above.
///
/// They always do up to 7 bits, and with 8 but for one number in forty thousand.
/// The highest byte goes in last, and the factor is 2^24 + 403: while that byte
/// takes on its 256 values, so does the first byte of the key, but for one at most,
/// which a carry passes over. So numbers that differ in three bytes give different
/// calls. Where a pattern of 8 bits is passed over, the number above is one for
/// which two highest bytes will do, and the second is taken, since the first makes
/// the call of that number; only two that are passed over can come to one call.
pub fn call_with(pattern: u32, local: u32, rest: u32) -> u32 {
    let fits = |call: &u32| pseudo_key(*call) as u64 >> (KEY_BITS - local) == u64::from(pattern);
    let calls = |low: u32| {
        let low = low % (1 << HIGHEST_BYTE);
        (0..256).map(move |high| high << HIGHEST_BYTE | low)
    };
    if let Some(call) = calls(rest).find(fits) {
        return call;
    }
    let passed_by = usize::from(local <= 8);
    let above = (1..1 << HIGHEST_BYTE).map(|more| rest.wrapping_add(more));
    let mut found = above.filter_map(|low| calls(low).filter(fits).nth(passed_by));
    found.next().expect("a pattern of few bits begins some key")
}

/// A call whose pseudo key has just the first `shared` bits, at most 15, in
/// common with that of a call: the next bit is another. Where it can be, its
/// three low bytes are the call's own.
pub fn neighbour(call: u32, shared: u32) -> u32 {
    let other = index(call, shared + 1) ^ 1;
    call_with(other as u32, shared + 1, call)
}
