//! How many calls of each function there were, and how often each answer came.

use crate::call::{row_of, Function, FUNCTIONS};
use std::collections::BTreeMap;

/// The counts, a map from answers for each function.
pub struct Tally {
    counts: Vec<BTreeMap<u64, u64>>,
}

impl Tally {
    /// No call yet.
    pub fn none() -> Tally {
        Tally {
            counts: vec![BTreeMap::new(); FUNCTIONS.len()],
        }
    }

    /// Counts a call.
    pub fn count(&mut self, function: Function, answer: u64) {
        *self.counts[row_of(function)].entry(answer).or_default() += 1;
    }

    /// Prints a line for each function: its calls, then each answer and how often
    /// it came.
    pub fn print(&self) {
        for (row, counts) in FUNCTIONS.iter().zip(&self.counts) {
            let calls: u64 = counts.values().sum();
            let answers: Vec<String> = counts
                .iter()
                .map(|(answer, count)| format!("{answer}: {count}"))
                .collect();
            println!("{:24} {calls:8}   {}", row.name, answers.join(", "));
        }
    }

    /// Whether every function gave every answer of its own and no other; prints
    /// those for which it doesn't hold.
    pub fn is_complete(&self) -> bool {
        let mut complete = true;
        for (row, counts) in FUNCTIONS.iter().zip(&self.counts) {
            if !counts.keys().eq(row.answers) {
                println!("{}: the answers must be {:?}", row.name, row.answers);
                complete = false;
            }
        }
        complete
    }
}
