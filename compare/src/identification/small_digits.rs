//! Bytes that are no reply block for a small letter alone: the switch digit and the six digits stay capitals.

use crate::counted::{add_each, listed};
use reference::read_block;
use std::fmt;

/// The places that stay capitals, in the order of `NAMES`.
pub const PLACES: std::ops::Range<usize> = 1..8;

const COUNT: usize = PLACES.end - PLACES.start;

const NAMES: [&str; COUNT] =
    ["switch digit", "first digit", "second digit", "third digit", "fourth digit", "fifth digit", "sixth digit"];

/// Counts by the place of the small letter.
#[derive(Clone, Debug, Default)]
pub struct SmallDigits([u64; COUNT]);

/// The block with capitals in all these places.
fn in_capitals(block: &[u8]) -> Vec<u8> {
    let mut block = block.to_vec();
    block[PLACES].make_ascii_uppercase();
    block
}

impl SmallDigits {
    /// Bytes that are no block: counted where capitals would make them one.
    pub fn count(&mut self, bytes: &[u8]) {
        if bytes.len() < PLACES.end || read_block(bytes).is_ok() || read_block(&in_capitals(bytes)).is_err() {
            return;
        }
        for (count, byte) in self.0.iter_mut().zip(&bytes[PLACES]) {
            *count += byte.is_ascii_lowercase() as u64;
        }
    }

    pub fn add(&mut self, more: &SmallDigits) {
        add_each(&mut self.0, &more.0);
    }

    pub fn named(&self) -> impl Iterator<Item = (&'static str, u64)> + '_ {
        NAMES.into_iter().zip(self.0)
    }
}

impl fmt::Display for SmallDigits {
    fn fmt(&self, f: &mut fmt::Formatter) -> fmt::Result {
        write!(f, "{}", listed(self.named()))
    }
}

#[cfg(test)]
mod tests {
    use super::*;

    #[test]
    fn blocks_are_counted_that_capitals_would_make_blocks() {
        let mut small = SmallDigits::default();
        for block in ["Sd600000a\r", "SD600000a\r", "R0FFFFFf\r", "s0500fFF\r", "R0GfffffA\r", "R0ffffff"] {
            small.count(block.as_bytes());
        }
        assert_eq!(small.0, [1, 0, 0, 0, 0, 0, 1]);
    }
}
