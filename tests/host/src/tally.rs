//! What was covered: how many calls of a kind, and how many answered each number.

use std::collections::BTreeMap;

#[derive(Default)]
pub struct Tally {
    answers: BTreeMap<u32, u64>,
}

impl Tally {
    pub fn count(&mut self, number: u32) {
        *self.answers.entry(number).or_default() += 1;
    }

    /// Prints the line for calls of a kind. That random calls agree says little of a number that hardly any of them met.
    pub fn report(&self, what: &str, numbers: &[u32], least: u64) {
        let calls: u64 = self.answers.values().sum();
        let met: Vec<String> = self
            .answers
            .iter()
            .map(|(number, times)| format!("{number}: {times}"))
            .collect();
        println!("{what}: {calls} agree (by number {})", met.join(", "));
        for number in numbers {
            let times = self.answers.get(number).copied().unwrap_or(0);
            assert!(
                times >= least,
                "{what}: number {number} was met {times} times only"
            );
        }
    }
}
