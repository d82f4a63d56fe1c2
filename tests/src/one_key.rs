//! Calls that share their whole pseudo key, all 32 bits of it.
//!
//! Nothing may rest on two calls having different keys. No depth parts such
//! calls, and everywhere else they are told apart by their numbers. Calls that
//! are drawn at random never have one key, so here are some that do.
//!
//! A call's highest byte goes into the key last: an exclusive-or with what came
//! of the three low ones, and then a product with an odd number, which keeps
//! different numbers different. So two calls have one key exactly where what came
//! of their low bytes differs by as much as their highest bytes do. All numbers of
//! three bytes have been searched for this: at most eight calls have one key.

use crate::key;
use crate::random::Random;

/// Groups of calls with one key, a group of each size from two to eight and
/// another of eight, each by rising number. These are all calls with that key.
pub const GROUPS: [&[u32]; 8] = [
    &[3_220_684, 262_098_400],
    &[2_041_710, 159_464_450, 626_454_448],
    &[16_870_756, 141_231_736, 363_346_058, 474_790_318],
    &[
        3_144_241,
        121_211_677,
        3_237_329_406,
        3_386_592_914,
        3_536_656_310,
    ],
    &[
        647_695,
        484_477_885,
        1_126_555_071,
        1_707_358_801,
        1_849_178_485,
        2_006_231_049,
    ],
    &[
        257_118,
        346_730_792,
        499_269_652,
        652_087_152,
        797_353_564,
        820_698_552,
        1_126_680_366,
    ],
    &[
        2_249_453,
        260_964_737,
        431_662_025,
        761_526_939,
        3_530_848_620,
        3_648_047_616,
        3_864_463_934,
        4_036_205_574,
    ],
    &[
        1_290_814,
        162_348_314,
        246_887_430,
        3_227_902_855,
        3_679_425_179,
        3_882_765_257,
        4_039_309_477,
        4_188_174_721,
    ],
];

/// A group of one key made of another: in the highest byte of every call the same
/// bits are changed, by any of 256 numbers. The order of the calls may change.
pub fn turned(group: &[u32], by: u8) -> Vec<u32> {
    let turn = |call: &u32| call ^ u32::from(by) << 24;
    group.iter().map(turn).collect()
}

/// The other calls with the key of this one: all of them, if it is a call of the
/// groups above, turned or not; else none, though there may be some.
pub fn others(call: u32) -> Vec<u32> {
    let turn = |member: &u32| call ^ member;
    let only_highest = |change: &u32| change.trailing_zeros() >= 24;
    let found = GROUPS.iter().find_map(|group| {
        let change = group.iter().map(turn).find(only_highest)?;
        Some(turned(group, (change >> 24) as u8))
    });
    let mut calls = found.unwrap_or_default();
    calls.retain(|other| *other != call);
    calls
}

/// Some group, in any order.
pub fn some_group(random: &mut Random) -> Vec<u32> {
    some_group_with(random, 0, 0)
}

/// Some group whose key begins with a pattern of `local` bits, at most 8, in any
/// order.
pub fn some_group_with(random: &mut Random, pattern: u32, local: u32) -> Vec<u32> {
    let first = random.below(GROUPS.len());
    let start = random.bits() as u8;
    let begun = |group: &&[u32]| {
        let turns = (0..=255).map(|step: u8| turned(group, start.wrapping_add(step)));
        let fits = |calls: &Vec<u32>| key::index(calls[0], local) == pattern as usize;
        turns.into_iter().find(fits)
    };
    // One group can miss a pattern of 8 bits; the next then has it.
    let mut groups = GROUPS.iter().cycle().skip(first).take(GROUPS.len());
    let mut calls = groups.find_map(begun).expect("a group with the pattern");
    random.shuffle(&mut calls);
    calls
}
