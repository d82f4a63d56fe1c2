//! How the charges that deletes ask for stand to those that are there, counted
//! for the tests that must not pass by never meeting one.

use crate::answer::{Answer, Code};
use crate::job::{Kind, Operation};
use crate::tally::all_seen;

/// How often each was met, by the deletes that have an answer.
#[derive(Clone, Copy, Debug, Default, PartialEq, Eq)]
pub struct Asked {
    /// Asked 0, and the call is there at 0.
    pub zero_of_zero: usize,
    /// Asked 0, and the call is there at another charge.
    pub zero_of_other: usize,
    /// Asked for just the charge that is there, which is not 0.
    pub equal: usize,
    /// Asked another charge than 0, and the call is there at 0.
    pub other_of_zero: usize,
    /// Asked another charge than 0, and the call is there at a third one.
    pub different: usize,
    /// Of the two before this, those where one byte of four is another.
    pub by_one_byte: [usize; 4],
    /// Asked 0, and the call is missing.
    pub zero_of_none: usize,
    /// Asked another charge than 0, and the call is missing.
    pub other_of_none: usize,
}

impl Asked {
    /// Counts one operation with its answer. Of a call that is there, an answer
    /// has "the file's charge", struck out or not.
    pub fn count(&mut self, operation: &Operation, answer: &Answer) {
        if operation.kind != Kind::Delete || answer.code == Code::NotYet {
            return;
        }
        let (asked, held) = (operation.charge, answer.charge);
        let met = match (answer.code, asked, held) {
            (Code::Absent, 0, _) => &mut self.zero_of_none,
            (Code::Absent, _, _) => &mut self.other_of_none,
            (Code::Deleted, 0, 0) => &mut self.zero_of_zero,
            (Code::Deleted, 0, _) => &mut self.zero_of_other,
            (Code::Deleted, _, _) if asked == held => &mut self.equal,
            (Code::Differs, 1.., 0) => &mut self.other_of_zero,
            (Code::Differs, 1.., _) if asked != held => &mut self.different,
            _ => panic!("{operation:?}: {answer:?}"),
        };
        *met += 1;
        if let Some(byte) = only_byte(asked, held).filter(|_| answer.code == Code::Differs) {
            self.by_one_byte[byte] += 1;
        }
    }

    /// Adds what was met elsewhere.
    pub fn add(&mut self, more: &Asked) {
        self.zero_of_zero += more.zero_of_zero;
        self.zero_of_other += more.zero_of_other;
        self.equal += more.equal;
        self.other_of_zero += more.other_of_zero;
        self.different += more.different;
        self.zero_of_none += more.zero_of_none;
        self.other_of_none += more.other_of_none;
        for (sum, one) in self.by_one_byte.iter_mut().zip(more.by_one_byte) {
            *sum += one;
        }
    }

    /// Each was met at least so often.
    pub fn all_met(&self, least: usize) {
        let rarest_byte = *self.by_one_byte.iter().min().unwrap();
        all_seen([
            ("asked 0, there at 0", self.zero_of_zero, least),
            ("asked 0, there at another", self.zero_of_other, least),
            ("asked what is there", self.equal, least),
            ("asked another, there at 0", self.other_of_zero, least),
            ("asked another, there at a third", self.different, least),
            ("rarest byte that alone differs", rarest_byte, least / 4),
            ("asked 0, missing", self.zero_of_none, least),
            ("asked another, missing", self.other_of_none, least),
        ]);
    }
}

/// The one byte in which two charges differ, counted from the lowest, if it is
/// just one.
fn only_byte(one: u32, other: u32) -> Option<usize> {
    let (one, other) = (one.to_le_bytes(), other.to_le_bytes());
    let mut differ = (0..4).filter(|at| one[*at] != other[*at]);
    let first = differ.next();
    first.filter(|_| differ.next().is_none())
}
