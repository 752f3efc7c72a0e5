//! How often each thing happened in a run.
use std::collections::BTreeMap;

#[derive(Clone, Default)]
pub struct Events(BTreeMap<&'static str, u64>);

impl Events {
    pub fn note(&mut self, event: &'static str) {
        self.add(event, 1);
    }

    pub fn add(&mut self, event: &'static str, count: u64) {
        if count > 0 {
            *self.0.entry(event).or_insert(0) += count;
        }
    }

    pub fn count(&self, event: &str) -> u64 {
        self.0.get(event).copied().unwrap_or(0)
    }

    pub fn names(&self) -> impl Iterator<Item = &'static str> + '_ {
        self.0.keys().copied()
    }

    pub fn merge(&mut self, other: &Events) {
        for (event, count) in &other.0 {
            self.add(event, *count);
        }
    }

    pub fn print(&self) {
        for (event, count) in &self.0 {
            println!("  {count:>12}  {event}");
        }
    }

    /// The events of a list that never happened.
    pub fn missing<'a>(&self, all: &[&'a str]) -> Vec<&'a str> {
        all.iter().copied().filter(|e| !self.0.contains_key(e)).collect()
    }
}
