//! How often things were met, numbers of refusal among them, for tests that must
//! not pass by never meeting one.

use std::collections::BTreeMap;

/// Each thing was met at least as often as is wanted: what it is, how often it
/// was met, and how often at least.
pub fn all_seen<const N: usize>(wanted: [(&str, usize, usize); N]) {
    for (what, seen, least) in wanted {
        assert!(seen >= least, "{what}: {seen}, wanted {least}: {wanted:?}");
    }
}

/// The times by number; 0 stands for a job that was accepted.
#[derive(Clone, Debug, Default)]
pub struct Tally(BTreeMap<u32, usize>);

impl Tally {
    /// Counts one refusal, or one job that was accepted.
    pub fn count(&mut self, number: u32) {
        *self.0.entry(number).or_default() += 1;
    }

    /// How many were counted.
    pub fn total(&self) -> usize {
        self.0.values().sum()
    }

    /// Each of these numbers was met at least so often.
    pub fn all_met(&self, numbers: impl IntoIterator<Item = u32>, least: usize) {
        println!("refusals by number, 0 for accepted: {:?}", self.0);
        for number in numbers {
            let times = self.0.get(&number).copied().unwrap_or(0);
            assert!(times >= least, "refusal {number}: only {times}");
        }
    }
}
