//! The words of the first table, with figures about their bounds.

use super::figure;
use super::number::{about, decimal, hexadecimal, spelled_in_16};
use crate::random::Random;
use reference::command::{HIGHEST_POLARITY, LONGEST, LONGEST_DWELL, ON_SETTING_BITS};
use reference::machine::INPUT_WORD_END;

const LAST_AXIS: u32 = 4;
const LAST_WATCH: u32 = 3;

/// Words that have no figure.
const ALONE: [&str; 6] = ["stop", "status", "everything", "inputs", "clear", "reset"];

/// What is near `carry on`.
const NEAR_CARRY_ON: [&str; 10] = [
    "carry",
    "carry ",
    "carry on on",
    "carry  on",
    "carry off",
    "carry o",
    "carry on 0",
    "carry 0",
    "carry On",
    "carryon",
];

/// An axis, or a master; mostly there is such a one.
fn axis(random: &mut Random) -> String {
    if random.chance(50) {
        random.between(0, LAST_AXIS).to_string()
    } else {
        decimal(random, LAST_AXIS)
    }
}

/// Input bits, at times with one that means nothing beside them, or with more than 20 or 32 bits.
fn inputs(random: &mut Random) -> String {
    let bits = random.bits() as u32 & ON_SETTING_BITS;
    let stray = bits as u128 | 1 << random.below(36);
    let any = about(random, ON_SETTING_BITS);
    let bits = random.pick(&[bits as u128, bits as u128, stray, any]);
    spelled_in_16(random, bits)
}

fn distance(random: &mut Random) -> String {
    let sign = random.pick(&["", "-"]);
    format!("distance {} {sign}{}", axis(random), decimal(random, LONGEST))
}

/// `carry on`, or what is near it and is not.
fn carry_on(random: &mut Random) -> String {
    if random.chance(60) {
        return "carry on".to_string();
    }
    random.pick(&NEAR_CARRY_ON).to_string()
}

fn start(random: &mut Random) -> String {
    let behind = random.pick(&["", "", "", " after dwell", " after dwell", " after dwell", " after", " dwell"]);
    format!("start {}{behind}", axis(random))
}

/// Words in one of the forms.
pub fn form(random: &mut Random) -> String {
    match random.below(28) {
        0..=2 => start(random),
        3 => format!("travel {}", axis(random)),
        4 => format!("position {}", axis(random)),
        5..=6 => format!("dwell {}", decimal(random, LONGEST_DWELL)),
        7 => format!("watch {}", decimal(random, LAST_WATCH)),
        8 => format!("polarity {}", hexadecimal(random, HIGHEST_POLARITY)),
        9 => format!("low {}", inputs(random)),
        10 => format!("high {}", inputs(random)),
        11 => format!("outputs {}", hexadecimal(random, INPUT_WORD_END - 1)),
        12..=14 => distance(random),
        15..=19 => figure::form(random),
        20..=21 => carry_on(random),
        _ => random.pick(&ALONE).to_string(),
    }
}
