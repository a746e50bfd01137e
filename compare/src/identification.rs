//! Identifications (paper 02, 7/14): the 22 characters, what is next to them, and how they are drawn.

mod at_host;
mod counted;
mod small_digits;

pub use at_host::AtHost;
pub use counted::Identifications;
pub use small_digits::{SmallDigits, PLACES};

use crate::random::Random;
use reference::Digit;

/// Numerals, capitals and small letters.
const ALL: &[u8; 22] = b"0123456789ABCDEFabcdef";
const LETTERS: &[u8; 12] = b"ABCDEFabcdef";
const SMALL: &[u8; 6] = b"abcdef";

/// The characters next to them.
pub const NEXT_TO_THEM: [u8; 6] = *b"/:@G`g";

pub fn is_identification(character: u8) -> bool {
    Digit::read(character).is_some()
}

/// One of the 22, all alike likely.
pub fn identification(random: &mut Random) -> u8 {
    random.pick(ALL)
}

/// One that is a letter.
pub fn letter(random: &mut Random) -> u8 {
    random.pick(LETTERS)
}

pub fn small_letter(random: &mut Random) -> u8 {
    random.pick(SMALL)
}

/// What is none: mostly next to one, else any byte but the two line ends.
pub fn near(random: &mut Random) -> u8 {
    let (next, any) = (random.pick(&NEXT_TO_THEM), random.below(256) as u8);
    let taken = is_identification(any) || matches!(any, b'\n' | b'\r');
    if taken || random.chance(70) {
        next
    } else {
        any
    }
}

/// Mostly one of the 22, now and then none.
pub fn mostly(random: &mut Random) -> u8 {
    if random.chance(96) {
        identification(random)
    } else {
        near(random)
    }
}

/// The same letter in the other case.
pub fn other_case(character: u8) -> Option<u8> {
    (is_identification(character) && character.is_ascii_alphabetic()).then_some(character ^ 0x20)
}

#[cfg(test)]
mod tests {
    use super::*;

    #[test]
    fn the_other_case_is_another_identification() {
        let pairs: Vec<(u8, u8)> = (0..=255).filter_map(|one| Some((one, other_case(one)?))).collect();
        assert_eq!(pairs.len(), LETTERS.len());
        assert!(pairs.iter().all(|&(one, other)| one != other && is_identification(other)));
        assert!(pairs.iter().all(|&(one, other)| one.eq_ignore_ascii_case(&other)));
    }

    #[test]
    fn what_is_near_is_none_and_ends_no_line() {
        let mut random = Random::of_item(1, 0, 0);
        let near: Vec<u8> = (0..20_000).map(|_| near(&mut random)).collect();
        assert!(near.iter().all(|&one| !is_identification(one) && !matches!(one, b'\n' | b'\r')));
        assert!((0..=255).all(|one| is_identification(one) || matches!(one, b'\n' | b'\r') || near.contains(&one)));
    }
}
