//! How often each identification came.

use super::ALL;
use crate::counted::{add_each, grouped};
use std::fmt;

const COUNT: usize = ALL.len();

/// Counts in the order of the characters.
#[derive(Clone, Debug, Default)]
pub struct Identifications([u64; COUNT]);

impl Identifications {
    /// What is no identification is not counted.
    pub fn count(&mut self, character: u8) {
        if let Some(at) = ALL.iter().position(|&one| one == character) {
            self.0[at] += 1;
        }
    }

    pub fn add(&mut self, more: &Identifications) {
        add_each(&mut self.0, &more.0);
    }

    /// How many came of a kind.
    fn of_kind(&self, kind: fn(&u8) -> bool) -> u64 {
        ALL.iter().zip(self.0).filter(|(character, _)| kind(character)).map(|(_, count)| count).sum()
    }

    pub fn small(&self) -> u64 {
        self.of_kind(u8::is_ascii_lowercase)
    }

    /// Each character with its count and where it was met.
    pub fn named<'a>(&'a self, place: &'a str) -> impl Iterator<Item = (String, u64)> + 'a {
        ALL.iter().zip(self.0).map(move |(&character, count)| (format!("{} {place}", character as char), count))
    }
}

impl fmt::Display for Identifications {
    fn fmt(&self, f: &mut fmt::Formatter) -> fmt::Result {
        let [small, capital, numeral] = [u8::is_ascii_lowercase, u8::is_ascii_uppercase, u8::is_ascii_digit]
            .map(|kind| grouped(self.of_kind(kind)));
        let came = self.0.iter().filter(|&&count| count > 0).count();
        write!(f, "small letters {small}, capitals {capital}, numerals {numeral}, characters {came} of {COUNT}")
    }
}
