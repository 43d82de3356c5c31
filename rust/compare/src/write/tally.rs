//! How many rows were laid down, and what was answered.

use std::collections::BTreeMap;
use std::ops::AddAssign;

/// Every number that a writer can answer with.
const NUMBERS: [u32; 4] = [0, 1, 19, 20];

#[derive(Clone, Debug, Default)]
pub struct WriteTally {
    /// The records of the rows that were written; each was looked up at once with all others of its row.
    pub records: u64,
    /// Keys that were looked up one by one.
    pub single_keys: u64,
    answers: BTreeMap<u32, u64>,
}

impl WriteTally {
    pub fn count_answer(&mut self, number: u32) {
        *self.answers.entry(number).or_default() += 1;
    }

    /// Pairs of a row and a target.
    pub fn targets(&self) -> u64 {
        self.answers.values().sum()
    }

    /// How often each number was answered.
    pub fn answers(&self) -> &BTreeMap<u32, u64> {
        &self.answers
    }

    /// Stops the run unless each number was answered so often at least, and no other.
    pub fn assert_every_answer(&self, least: u64) {
        let numbers: Vec<u32> = self.answers.keys().copied().collect();
        assert_eq!(numbers, NUMBERS, "answers of the writers");
        for (number, &count) in &self.answers {
            assert!(count >= least, "{number} was answered only {count} times");
        }
    }
}

impl AddAssign<&WriteTally> for WriteTally {
    fn add_assign(&mut self, other: &WriteTally) {
        self.records += other.records;
        self.single_keys += other.single_keys;
        for (&number, count) in &other.answers {
            *self.answers.entry(number).or_default() += count;
        }
    }
}
