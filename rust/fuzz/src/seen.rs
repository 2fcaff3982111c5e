//! What the calls answered, so that a run that meets too little is no success.

use std::collections::BTreeMap;
use std::fmt;
use thaksipho::Refusal;

/// How many of each call were done, and how many inputs each refusal was given to.
#[derive(Default)]
pub struct Seen {
    done: BTreeMap<&'static str, u64>,
    refused: BTreeMap<u8, u64>,
    calls: u64,
}

/// Every call of the library.
const CALLS: [&str; 9] = [
    "read", "rewrite", "compile", "start", "may", "offer", "count", "score", "greedy",
];

impl Seen {
    /// Notes one answer of a call.
    pub fn note<T>(&mut self, call: &'static str, answer: &Result<T, Refusal>) {
        self.calls += 1;
        match answer {
            Ok(_) => *self.done.entry(call).or_default() += 1,
            Err(refusal) => *self.refused.entry(refusal.number).or_default() += 1,
        }
    }

    /// Calls that were never done and numbers that were never given, in words; empty where all were.
    pub fn missing(&self) -> String {
        let calls = CALLS.iter().filter(|call| !self.done.contains_key(*call));
        let calls = calls.map(|call| format!("done by {call}"));
        let numbers = Refusal::NUMBERS
            .iter()
            .filter(|number| !self.refused.contains_key(number))
            .map(|number| format!("refused by {number}"));
        calls.chain(numbers).collect::<Vec<_>>().join(", ")
    }
}

impl fmt::Display for Seen {
    fn fmt(&self, f: &mut fmt::Formatter<'_>) -> fmt::Result {
        let done: u64 = self.done.values().sum();
        write!(f, "{} calls, {done} done; refused ", self.calls)?;
        let refused = self.refused.iter();
        let refused = refused.map(|(number, times)| format!("{number}: {times}"));
        f.write_str(&refused.collect::<Vec<_>>().join(", "))
    }
}
