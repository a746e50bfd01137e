//! `W`: commands with their fields, line buffers and identifications.

use super::near;
use crate::identification;
use crate::random::Random;
use reference::command::{FASTEST, HIGHEST_POLARITY, LONGEST, LONGEST_DWELL, ON_SETTING_BITS, STEEPEST};
use reference::machine::INPUT_WORD_END;

/// The commands of the page's table.
const COMMANDS: u32 = 19;

/// The greatest value of each command that has one and is no set of input bits; 3 for the others.
fn last(command: u32) -> u32 {
    match command {
        0x00 => LONGEST,
        0x01 => FASTEST,
        0x02 => STEEPEST,
        0x03 => LONGEST_DWELL,
        0x05 => HIGHEST_POLARITY,
        0x11 => INPUT_WORD_END - 1,
        _ => 3,
    }
}

/// Input bits, at times with one that means nothing beside them.
fn inputs(random: &mut Random) -> u32 {
    let bits = random.bits() as u32 & ON_SETTING_BITS;
    if random.chance(40) {
        bits | 1 << random.below(32)
    } else {
        bits
    }
}

fn value(random: &mut Random, command: u32) -> u32 {
    match command {
        0x04 => near(random, 3) | near(random, 0xFF_FFFE) << 8,
        0x0C | 0x0D => inputs(random),
        _ => near(random, last(command)),
    }
}

/// None, mostly one of the 22 characters, or any other byte, mostly next to one.
fn identification(random: &mut Random) -> String {
    let character = match random.below(20) {
        0..=8 => return "--".into(),
        9..=17 => identification::identification(random),
        18 => identification::near(random),
        _ => random.below(256) as u8,
    };
    format!("{character:02X}")
}

/// Mostly the least length that is taken.
fn room(random: &mut Random) -> u32 {
    match random.below(20) {
        0..=11 => 10,
        12..=14 => random.between(8, 11),
        15..=18 => random.below(65),
        _ => random.below(256),
    }
}

pub fn line(random: &mut Random) -> String {
    let command = if random.chance(98) { random.below(COMMANDS) } else { random.below(256) };
    let axis = if random.chance(85) { random.below(6) } else { random.below(256) };
    format!(
        "W {:02X} {} {command:02X} {axis:02X} {} {:08X} {}",
        room(random),
        random.below(2),
        random.below(2),
        value(random, command),
        identification(random)
    )
}
