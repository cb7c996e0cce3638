//! Refusals, counted by number.

use crate::ends::Refusal;
use crate::words;
use std::collections::BTreeMap;

#[derive(Default)]
pub struct Refusals(BTreeMap<Refusal, usize>);

impl Refusals {
    pub fn add(&mut self, number: Refusal) {
        *self.0.entry(number).or_default() += 1;
    }

    /// One line for each number met, or one that says there were none.
    pub fn lines(&self) -> Vec<String> {
        if self.0.is_empty() {
            return vec!["no refusals".to_string()];
        }
        let line = |(number, times): (&Refusal, &usize)| {
            format!("refused with {number} ({}): {}", words::refusal(*number), words::count(*times, "time", "times"))
        };
        self.0.iter().map(line).collect()
    }
}
