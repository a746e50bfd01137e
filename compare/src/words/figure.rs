//! Speeds and slopes: exact, inexact, out of range, and what is no figure.

use super::number::about;
use crate::random::Random;
use reference::command::{FASTEST, STEEPEST};

/// The word, the largest setting, and how many quarters a unit has.
const SPEED: (&str, u32, u128) = ("speed", FASTEST, 1);
const SLOPE: (&str, u32, u128) = ("slope", STEEPEST, 5);

/// What is behind the point of so many quarters.
const BEHIND: [&str; 4] = ["", "25", "5", "75"];

/// What comes close to a quarter from below, before more nines.
const JUST_BELOW: [&str; 4] = ["249", "49", "749", "99"];

/// What is no figure.
const NO_FIGURES: [&str; 20] = [
    "", ".", "-", "-.", ".5", "5.", "-.5", "-5.", "+5", "--5", "5-", "1e3", "1..5", "1.-5", "1.5.5", "2,500", "A",
    "1.A", "inf", "5 Hz",
];

/// So many characters, or none.
fn some(random: &mut Random, character: &str, percent: u32) -> String {
    let count = if random.chance(percent) { random.pick(&[1, 1, 2, 3, 8, 20, 30]) } else { 0 };
    character.repeat(count)
}

/// So many quarters, exactly; zeros before the figure and behind it alter nothing.
fn exact(random: &mut Random, quarters: u128) -> String {
    let behind = BEHIND[(quarters % 4) as usize];
    let zeros = some(random, "0", 25);
    let point = if behind.is_empty() && zeros.is_empty() { "" } else { "." };
    format!("{}{}{point}{behind}{zeros}", some(random, "0", 15), quarters / 4)
}

/// A figure that is no quarter: just above one, just below one, or with any digits behind its point.
fn inexact(random: &mut Random, quarters: u128) -> String {
    let (whole, any) = (quarters / 4, random.below(10_000));
    match random.below(3) {
        0 => format!("{whole}.{}{}1", BEHIND[(quarters % 4) as usize], some(random, "0", 80)),
        1 => format!("{whole}.{}{}", random.pick(&JUST_BELOW), some(random, "9", 80)),
        _ => format!("{whole}.{any}{}", some(random, "0", 30)),
    }
}

/// The quarters of a figure: mostly units about the range, for a slope at times what lies between two of them.
fn quarters(random: &mut Random, last: u32, unit: u128) -> u128 {
    let (units, beside) = (about(random, last), random.below(5) as u128);
    if random.chance(80) {
        units * unit
    } else {
        units * unit + beside
    }
}

/// Words in one of the two forms.
pub fn form(random: &mut Random) -> String {
    let (word, last, unit) = random.pick(&[SPEED, SLOPE]);
    let quarters = quarters(random, last, unit);
    let sign = if random.chance(6) { "-" } else { "" };
    let figure = match random.below(10) {
        0 => random.pick(&NO_FIGURES).to_string(),
        1..=2 => inexact(random, quarters),
        _ => exact(random, quarters),
    };
    format!("{word} {sign}{figure}")
}
