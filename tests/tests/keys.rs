//! The pseudo key by itself ("Call numbers by line card"): "FNV-1a, 32 bits, as published", held to published values and to other ways of reckoning it.

use std::collections::BTreeSet;

use chargefile_tests::key::{
    begins, call_with, index, leading_bit, neighbour, pseudo_key, shared_bits,
};
use chargefile_tests::random::Random;
use chargefile_tests::seeds::each_seed;

const CALLS: u64 = 20_000;

/// One byte more, as the machine multiplies.
fn one_more(key: u32, byte: u8) -> u32 {
    (key ^ u32::from(byte)).wrapping_mul(16_777_619)
}

/// The key as the machine multiplies: modulo 2^32 by itself.
fn machine_key(call: u32) -> u32 {
    call.to_le_bytes().into_iter().fold(0x811c_9dc5, one_more)
}

/// The published values of the texts "foob" and "foobar": the first is a call's four bytes, the second goes on from there with two bytes more.
#[test]
fn published_values() {
    let foob = pseudo_key(u32::from_le_bytes(*b"foob"));
    assert_eq!(foob, 0x3f50_76ef);
    let foobar = one_more(one_more(foob, b'a'), b'r');
    assert_eq!(foobar, 0xbf9c_f968);
}

/// The three of the worked jobs, and two calls with one key.
#[test]
fn worked_values() {
    let keys = [1, 6, 0].map(pseudo_key);
    assert_eq!(keys, [0xfb69_b604, 0xab3d_76f3, 0x4b95_f515]);
    let one_key = [474_790_318, 141_231_736].map(pseudo_key);
    assert_eq!(one_key, [0x47c6_07a0; 2]);
}

/// Call 0 by hand. An exclusive-or with 0 changes nothing, so the start is multiplied four times: how many times 2^32 goes into the product, and what is left.
#[test]
fn call_0_by_hand() {
    let mut key: u64 = 2_166_136_261;
    for (times, left) in [
        (8_461_673, 84_696_351),
        (330_853, 292_984_781),
        (1_144_499, 1_253_111_735),
        (4_895_085, 1_268_118_805),
    ] {
        assert_eq!(key * 16_777_619, times * 4_294_967_296 + left);
        key = left;
    }
    assert_eq!(u64::from(pseudo_key(0)), key);
}

/// 32 bits, the lowest first.
type Bits = [bool; 32];

fn bits(number: u32) -> Bits {
    let mut left = number;
    [(); 32].map(|()| {
        let bit = left % 2 == 1;
        left /= 2;
        bit
    })
}

/// A sum as it is done on paper; what is carried out of the last bit falls away.
fn sum(one: Bits, other: Bits) -> Bits {
    let mut carried = false;
    let mut position = 0;
    one.map(|bit| {
        let ones = [bit, other[position], carried].into_iter().filter(|b| *b);
        let ones = ones.count();
        (carried, position) = (ones >= 2, position + 1);
        ones % 2 == 1
    })
}

/// A product as it is done on paper: a row for each bit of the factor that is 1, moved to the left by that bit's position.
fn product(number: Bits, factor: Bits) -> Bits {
    let mut whole = bits(0);
    for (moved, _) in factor.iter().enumerate().filter(|(_, bit)| **bit) {
        let mut row = bits(0);
        row[moved..].copy_from_slice(&number[..32 - moved]);
        whole = sum(whole, row);
    }
    whole
}

/// The key on paper, bit by bit, from the call's bits: bits 0 to 7 are its lowest byte.
fn on_paper(call: u32) -> Bits {
    let call = bits(call);
    call.chunks(8).fold(bits(2_166_136_261), |mut key, byte| {
        for (own, other) in key.iter_mut().zip(byte) {
            *own = *own != *other;
        }
        product(key, bits(16_777_619))
    })
}

/// A call: any, or one with few bits.
fn some_call(random: &mut Random) -> u32 {
    let few = 1 << random.below(32) | 1 << random.below(32);
    let any = random.word();
    let short = any >> random.below(32);
    random.one_of(&[any, few, short])
}

#[test]
fn the_key_on_paper_and_by_the_machine() {
    each_seed(CALLS, |seed| {
        let call = some_call(&mut Random::new(seed, "key on paper"));
        let key = pseudo_key(call);
        assert_eq!(bits(key), on_paper(call), "{call}");
        assert_eq!(key, machine_key(call), "{call}");
        // the bits from the front are those of the paper from the back
        for (position, bit) in on_paper(call).into_iter().rev().enumerate() {
            assert_eq!(leading_bit(call, position as u32), bit);
        }
    });
}

/// What is asked of keys, by shifts and leading zeros.
#[test]
fn keys_agree_with_the_machine() {
    each_seed(CALLS, |seed| {
        let random = &mut Random::new(seed, "keys");
        let (one, other) = (random.word(), random.word() << random.below(32));
        let key = machine_key(one);
        assert_eq!(pseudo_key(one), key);
        assert_eq!(shared_bits(pseudo_key(one), key), 32);
        let near = one ^ other;
        assert_eq!(shared_bits(one, near), other.leading_zeros());
        assert_eq!(shared_bits(one, one), 32);
        for depth in 1..=8 {
            let first = (key >> (32 - depth)) as usize;
            assert_eq!(index(one, depth), first);
            assert!(begins(first as u32, depth, first, depth));
            let made = call_with(first as u32, depth, other);
            assert_eq!(index(made, depth), first);
        }
        assert_eq!(index(one, 0), 0);
    });
}

/// "The new switch puts the line card in the low eight bits": 4,096 calls of one card are 16 for each entry of depth 8 on the average, and every entry has some.
#[test]
fn the_calls_of_a_line_card_spread() {
    for card in 0..256 {
        let mut entries = [0; 256];
        for number in 0..4_096 {
            entries[index(number << 8 | card, 8)] += 1;
        }
        assert!(entries.iter().all(|calls| (1..=32).contains(calls)));
        assert_eq!(entries.iter().sum::<usize>(), 4_096);
    }
}

/// Up to 7 bits the three low bytes are those asked for, and with 8 but for a few; beyond that they are not far above.
#[test]
fn a_call_with_a_pattern() {
    let (mut of_8, mut above_8) = (0, 0);
    let whole = each_seed(CALLS, |seed| {
        let random = &mut Random::new(seed, "call with");
        let local = random.one_of(&[0, 1, 2, 3, 4, 5, 6, 7, 8, 8, 8, 9, 11, 13]);
        let pattern = random.below(1 << local) as u32;
        let rest = some_call(random);
        let call = call_with(pattern, local, rest);
        assert_eq!(index(call, local), pattern as usize);
        assert_eq!(call, call_with(pattern, local, rest % (1 << 24)));
        let above = call.wrapping_sub(rest) % (1 << 24);
        if local < 8 {
            assert_eq!(above, 0);
        }
        of_8 += usize::from(local == 8);
        above_8 += usize::from(local == 8 && above != 0);
        assert!(local <= 8 || above < 1 << 11, "{above} above");
    });
    if whole {
        println!("patterns of 8 bits: {of_8}, with another number: {above_8}");
        assert!(of_8 >= 3_000 && above_8 <= 5);
    }
}

/// At the most bits that can be asked for.
#[test]
fn a_call_with_a_pattern_of_16_bits() {
    for pattern in (0..1 << 16).step_by(997) {
        assert_eq!(index(call_with(pattern, 16, 7), 16), pattern as usize);
    }
}

/// None of the 256 calls with low bytes 1666 has a key that begins with 97. The call that is given then is no other number's.
#[test]
fn a_pattern_that_is_passed_over() {
    let with_1666 = |high: u32| index(high << 24 | 1_666, 8);
    assert!((0..256).all(|high| with_1666(high) != 97));
    let call = call_with(97, 8, 1_666);
    assert_eq!(index(call, 8), 97);
    assert_ne!(call % (1 << 24), 1_666);
    assert_ne!(call_with(97, 8, call), call);
}

/// Different numbers of three bytes give different calls.
#[test]
fn different_numbers_give_different_calls() {
    for (local, pattern) in [
        (0, 0),
        (1, 1),
        (4, 9),
        (7, 100),
        (8, 97),
        (8, 172),
        (8, 255),
    ] {
        let near = (0..5_000).map(|rest| call_with(pattern, local, rest));
        let far = (1..256).map(|high| call_with(pattern, local, high << 16));
        let calls: BTreeSet<u32> = near.chain(far).collect();
        assert_eq!(calls.len(), 5_255, "pattern {pattern} of {local} bits");
    }
}

#[test]
fn a_neighbour_shares_just_so_many_bits() {
    each_seed(CALLS, |seed| {
        let random = &mut Random::new(seed, "neighbour");
        let (call, shared) = (some_call(random), random.below(12) as u32);
        let [one, other] = [call, neighbour(call, shared)].map(pseudo_key);
        assert_eq!(shared_bits(one, other), shared);
        assert_eq!((one ^ other).leading_zeros(), shared);
    });
}
