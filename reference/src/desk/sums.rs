//! From words, rule 4: the five sums that the bench program prints.

use super::numbers::{decimal, unsigned};
use crate::fields::split;

/// From words: the numbers of a line of sums.
const SUMS: usize = 5;

/// From words: decimal digits, one or more, and before them a minus sign or none.
fn is_sum(word: &[u8]) -> bool {
    decimal(unsigned(word).1).is_some()
}

/// From words: five sums are passed on as they stand, however long, behind the word `pulses`.
pub(super) fn passed_on(line: &[u8]) -> Option<String> {
    let words = split(line);
    if words.len() != SUMS || !words.iter().all(|word| is_sum(word)) {
        return None;
    }
    Some(format!("pulses {}", String::from_utf8_lossy(line)))
}
