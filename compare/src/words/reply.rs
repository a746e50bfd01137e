//! Reply blocks in every form, damaged by one character, and with a small letter where capitals stay.

use super::touched;
use crate::identification::{mostly, other_case};
use crate::random::Random;
use crate::vector::block;
use reference::command::ON_SETTING_BITS;

/// The letter and the six digits of a block that the controller may send, the kinds with many words oftener.
fn sent(random: &mut Random) -> (char, u32) {
    let (axis, any) = (random.below(5) << 20, random.below(1 << 20));
    let inputs = any & ON_SETTING_BITS;
    match random.below(10) {
        0..=1 => ('U', random.pick(&[0, 4, 5, 6, 7, 8, 9, 10, 11, 12, 13, 14, 15, 16, 17, 26])),
        2 => ('S', axis | any),
        3..=5 => ('S', 0x600000 | random.below(128)),
        6 => ('S', 0x800000 | random.pick(&[0, 1, 2, 3, 4, 8, 9, 10, 11, 12]) << 16 | any & 0xFFFF),
        7 => ('S', random.pick(&[0x900000, 0xA00000, 0xB00000, 0xC00000]) | any),
        8 => ('S', random.pick(&[0xD00000, 0xE00000]) | inputs),
        _ => ('s', axis | any),
    }
}

/// A block that the controller may send, but for an identification with 4 to 7 or that is none, and a switch C.
fn whole(random: &mut Random) -> Vec<u8> {
    let (letter, digits) = sent(random);
    let switch = if random.chance(40) { '0' } else { random.digit() as char };
    let mut line = format!("{letter}{switch}{digits:06X}").into_bytes();
    if random.chance(30) {
        line.push(mostly(random));
    }
    line
}

/// A block for the host end, whose fields may be out of their ranges; in two of 100 with its 0D, which is one too many.
fn of_any_fields(random: &mut Random) -> Vec<u8> {
    let mut line = block::block(random);
    if random.chance(98) {
        line.pop();
    }
    line
}

/// A block, the line feed in the place of its 0D.
pub fn line(random: &mut Random) -> Vec<u8> {
    let line = if random.chance(50) { whole(random) } else { of_any_fields(random) };
    match random.below(100) {
        0..=23 => touched(random, line),
        24..=32 => block::with_small_digit(random, line),
        _ => line,
    }
}

/// The same block with the identification in the other case, where it is a letter.
pub fn in_other_case(line: &[u8]) -> Option<Vec<u8>> {
    match line {
        [block @ .., identification] if block.len() == 8 && b"USsR".contains(&block[0]) => {
            Some([block, &[other_case(*identification)?]].concat())
        }
        _ => None,
    }
}
