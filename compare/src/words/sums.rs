//! The five sums that the bench program prints, whole and damaged.

use crate::random::Random;

/// A sum of the bench program has up to 1,000,000 pulses; any digits are passed on, though.
const MOST: u32 = 1_000_000;

/// What is no sum.
const NO_SUMS: [&str; 11] = ["", "-", "--1", "+1", "1.0", "A", "0A", "1-", "0x1", "- 1", "-\t1"];

fn sum(random: &mut Random) -> String {
    let digits = match random.below(10) {
        0..=3 => "0".to_string(),
        4..=7 => random.spread(MOST).to_string(),
        8 => format!("{}{}", random.bits(), random.bits() >> random.below(64)),
        _ => format!("00{}", random.below(10)),
    };
    format!("{}{digits}", random.pick(&["", "", "-"]))
}

/// What stands between two sums, mostly one space.
fn between(random: &mut Random) -> &'static str {
    if random.chance(99) {
        " "
    } else {
        random.pick(&["  ", "\t", "", ", "])
    }
}

/// Sums, mostly five.
pub fn line(random: &mut Random) -> String {
    let count = if random.chance(90) { 5 } else { random.between(1, 7) };
    let mut line = sum(random);
    for _ in 1..count {
        line.push_str(between(random));
        line.push_str(&if random.chance(98) { sum(random) } else { random.pick(&NO_SUMS).to_string() });
    }
    match random.below(50) {
        0 => format!(" {line}"),
        1 => format!("{line} "),
        2 => format!("pulses {line}"),
        _ => line,
    }
}
