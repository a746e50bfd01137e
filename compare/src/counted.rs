//! What all counters have in common: they add up, and are printed alike.

use std::collections::BTreeMap;
use std::fmt::Display;

/// A number with a comma before each three digits.
pub fn grouped(number: u64) -> String {
    let digits = number.to_string();
    let mut text = String::new();
    for (at, digit) in digits.chars().enumerate() {
        if at > 0 && (digits.len() - at).is_multiple_of(3) {
            text.push(',');
        }
        text.push(digit);
    }
    text
}

/// Names with their counts.
pub fn listed<K: Display>(counts: impl Iterator<Item = (K, u64)>) -> String {
    let all: Vec<String> = counts.map(|(name, count)| format!("{name} {}", grouped(count))).collect();
    all.join(", ")
}

/// A line of the names whose counts are 0; nothing where none is.
pub fn not_met<K: Display>(counts: impl Iterator<Item = (K, u64)>) -> String {
    let names: Vec<String> = counts.filter(|(_, count)| *count == 0).map(|(name, _)| name.to_string()).collect();
    match names.as_slice() {
        [] => String::new(),
        names => format!("  NOT MET: {}\n", names.join(", ")),
    }
}

/// Adds each count to the sum in its place.
pub fn add_each<const N: usize>(sums: &mut [u64; N], more: &[u64; N]) {
    for (sum, count) in sums.iter_mut().zip(more) {
        *sum += count;
    }
}

/// Counts by their names, which come to be known as they are met.
#[derive(Clone, Debug)]
pub struct Named<K>(BTreeMap<K, u64>);

impl<K> Default for Named<K> {
    fn default() -> Named<K> {
        Named(BTreeMap::new())
    }
}

impl<K: Clone + Display + Ord> Named<K> {
    pub fn count(&mut self, name: K) {
        *self.0.entry(name).or_default() += 1;
    }

    /// Adds each count to the sum of the same name.
    pub fn add(&mut self, more: &Named<K>) {
        for (name, count) in &more.0 {
            *self.0.entry(name.clone()).or_default() += count;
        }
    }

    pub fn sum(&self) -> u64 {
        self.0.values().sum()
    }

    /// How often a name came.
    pub fn of(&self, name: &K) -> u64 {
        self.0.get(name).copied().unwrap_or(0)
    }

    /// How many names came.
    pub fn names(&self) -> usize {
        self.0.len()
    }

    pub fn listed(&self) -> String {
        listed(self.0.iter().map(|(name, &count)| (name, count)))
    }

    /// With a colon behind each name, for those that are numbers themselves.
    pub fn listed_with_colons(&self) -> String {
        listed(self.0.iter().map(|(name, &count)| (format!("{name}:"), count)))
    }
}

/// Counters that add up.
pub trait Counted: Default + Send {
    /// These counters and those of another run together.
    fn add(&mut self, more: &Self);
}
