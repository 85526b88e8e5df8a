//! How often calls were answered with each number, and how many of the accepted ones were of the crate's way.

use crate::desk::WAY;
use std::collections::BTreeMap;

/// By call and number; by call.
#[derive(Default)]
pub struct Answers {
    all: BTreeMap<(u32, u32), u64>,
    crates: BTreeMap<u32, u64>,
}

impl Answers {
    /// A call, the number it was answered with, and the record that it left.
    pub fn count(&mut self, call: u32, number: u32, record: &[u32]) {
        // of refusal 7, not the model's own number and layer
        *self.all.entry((call, number % 256)).or_default() += 1;
        *self.crates.entry(call).or_default() += u64::from(number == 0 && record[WAY] == 1);
    }

    /// The numbers of a call, and how often each was met.
    fn of(&self, call: u32) -> impl Iterator<Item = (u32, u64)> + '_ {
        self.all.range((call, 0)..(call + 1, 0)).map(|((_, number), times)| (*number, *times))
    }

    pub fn numbers(&self, call: u32) -> Vec<u32> {
        self.of(call).map(|(number, _)| number).collect()
    }

    /// How often a call was accepted.
    pub fn done(&self, call: u32) -> u64 {
        self.all.get(&(call, 0)).copied().unwrap_or(0)
    }

    /// How often one of the crate's way was.
    pub fn of_crate(&self, call: u32) -> u64 {
        self.crates.get(&call).copied().unwrap_or(0)
    }

    pub fn refused(&self, call: u32) -> String {
        let refused = self.of(call).filter(|(number, _)| *number > 0);
        refused.map(|(number, times)| format!("{times} with {number}")).collect::<Vec<_>>().join(", ")
    }
}
