//! Numbers as people write them: at, next to and far from the ends of a range, with zeros before them; and none.

use crate::random::Random;

/// A number of so many bits and then some is a small one to whoever drops what is above.
const WIDTHS: [u32; 4] = [8, 16, 32, 64];

/// A number about a range from 0 or 1 to `last`: its ends, what is next to them, one in it, any of up to 100 bits.
pub fn about(random: &mut Random, last: u32) -> u128 {
    let few = random.below(3) as u128;
    let inside = random.between(0, last) as u128;
    let width = 1 << random.pick(&WIDTHS);
    let last_number = last as u128;
    match random.below(20) {
        0..=1 => few,
        2..=4 => last_number,
        5..=6 => last_number + 1,
        7 => last_number.saturating_sub(few),
        8 => last_number + few,
        9 => width + few - 1,
        10 => width + inside,
        11 => (random.bits() as u128) << 36 >> random.below(100),
        12..=15 => random.spread(last) as u128,
        _ => inside,
    }
}

/// Zeros before a number, mostly none.
fn zeros(random: &mut Random) -> String {
    let count = match random.below(100) {
        0..=19 => random.between(1, 6),
        20 => random.between(7, 70),
        _ => 0,
    };
    "0".repeat(count as usize)
}

/// What is no number, made from one.
fn spoilt(random: &mut Random, number: String) -> String {
    match random.below(8) {
        0 => String::new(),
        1 => format!("-{number}"),
        2 => format!("+{number}"),
        3 => format!("{number}.0"),
        4 => format!("0x{number}"),
        5 => format!("{number} {number}"),
        6 => random.pick(&["x", "-", "two", "G", "g", "A", "0-0", "1,000"]).to_string(),
        _ => format!("{number}{}", random.pick(b"AafFGgx:/.,-") as char),
    }
}

fn mostly_whole(random: &mut Random, number: String) -> String {
    if random.chance(4) {
        spoilt(random, number)
    } else {
        number
    }
}

/// A number in decimal digits.
pub fn spelled(random: &mut Random, number: u128) -> String {
    let spelled = format!("{}{number}", zeros(random));
    mostly_whole(random, spelled)
}

/// A number in hexadecimal digits, their letters capital, small or mixed.
pub fn spelled_in_16(random: &mut Random, number: u128) -> String {
    let capitals = random.pick(&[100, 100, 0, 50]);
    let digits = format!("{number:x}");
    let case = |letter: char| if random.chance(capitals) { letter.to_ascii_uppercase() } else { letter };
    let digits: String = digits.chars().map(case).collect();
    let spelled = format!("{}{digits}", zeros(random));
    mostly_whole(random, spelled)
}

/// A number about a range in decimal digits.
pub fn decimal(random: &mut Random, last: u32) -> String {
    let number = about(random, last);
    spelled(random, number)
}

/// A number about a range in hexadecimal digits.
pub fn hexadecimal(random: &mut Random, last: u32) -> String {
    let number = about(random, last);
    spelled_in_16(random, number)
}
