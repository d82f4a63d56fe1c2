//! The charges that random deletes ask for.
//!
//! Evenly drawn ones would never be the file's. So most are charges that the
//! call has somewhere: in the file as it comes in, or by an insert of the same
//! job, which may be stored before the delete, after it, or not at all.

use std::collections::BTreeMap;

use crate::file::ChargeFile;
use crate::job::{Kind, Operation};
use crate::make;
use crate::random::Random;

/// Lets each delete ask for a charge, or for none.
pub(crate) fn ask(random: &mut Random, file: &ChargeFile, operations: &mut [Operation]) {
    let known = charges_by_call(file, operations);
    for operation in operations {
        if operation.kind == Kind::Delete {
            let charges = known.get(&operation.call).map_or(&[][..], Vec::as_slice);
            operation.charge = asked(random, charges);
        }
    }
}

/// The charges that a call can have: that of the file first, then those of the
/// inserts.
fn charges_by_call(file: &ChargeFile, operations: &[Operation]) -> BTreeMap<u32, Vec<u32>> {
    let mut known: BTreeMap<u32, Vec<u32>> = BTreeMap::new();
    for record in file.holds() {
        known.entry(record.call).or_default().push(record.charge);
    }
    for operation in operations {
        if operation.kind == Kind::Insert {
            known
                .entry(operation.call)
                .or_default()
                .push(operation.charge);
        }
    }
    known
}

/// Nothing in particular, a charge of the call, or one that is near it.
fn asked(random: &mut Random, charges: &[u32]) -> u32 {
    let Some(first) = charges.first().copied() else {
        let any = make::charge(random);
        return random.one_of(&[0, any]);
    };
    // The first is the likeliest to be there: a later one is not stored while it is.
    let of_the_call = match random.below(3) {
        0 => random.one_of(charges),
        _ => first,
    };
    match random.below(10) {
        0..=2 => 0,
        3 => make::charge(random),
        4 | 5 => near(random, of_the_call),
        _ => of_the_call,
    }
}

/// A charge with another value in one of its bytes.
pub(crate) fn near(random: &mut Random, charge: u32) -> u32 {
    let byte = u32::from(random.nonzero_byte());
    charge ^ byte << (8 * random.below(4))
}
