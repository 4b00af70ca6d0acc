//! How often what came.

use crate::expected;
use std::collections::BTreeMap;

pub const LISTS: &str = "lists";
pub const STEPS: &str = "steps";
pub const STEP_CALLS: &str = "calls of step";
pub const READ_ONLY_CALLS: &str = "refused on read-only memory";
pub const LARGE_STEPS: &str = "steps in states over 300,000 bytes";
pub const COMPARED: &str = "comparisons of all places and queues";
pub const UNUSED: &str = "of what is unused";
pub const RUN_SINGLY: &str = "calls of run with one step";
pub const RUN_CALLS: &str = "calls of run";
pub const RUN_STEPS: &str = "steps taken by run";

#[derive(Default)]
pub struct Counts(BTreeMap<String, u64>);

impl Counts {
    pub fn add(&mut self, what: &str, times: u64) {
        match self.0.get_mut(what) {
            Some(count) => *count += times,
            None => drop(self.0.insert(what.to_string(), times)),
        }
    }

    pub fn get(&self, what: &str) -> u64 {
        self.0.get(what).copied().unwrap_or(0)
    }

    pub fn merge(&mut self, other: &Counts) {
        other.0.iter().for_each(|(what, &times)| self.add(what, times));
    }

    /// A line for each: the count, a space, and what is counted.
    pub fn lines(&self) -> String {
        self.0.iter().map(|(what, count)| format!("{count} {what}\n")).collect()
    }

    pub fn read(text: &str) -> Option<Counts> {
        let line = |line: &str| {
            let (count, what) = line.split_once(' ')?;
            Some((what.to_string(), count.parse().ok()?))
        };
        text.lines().map(line).collect::<Option<_>>().map(Counts)
    }

    /// The counts of answers and refusals, in the order of their numbers.
    pub fn answers(&self) -> String {
        let answers = expected::ANSWERS.map(|answer| answer.0);
        let numbers = answers.into_iter().chain(expected::REFUSALS).map(expected::name);
        let shown = numbers.filter(|name| self.get(name) > 0);
        shown.map(|name| format!("{:>12} {name}\n", self.get(&name))).collect()
    }
}
