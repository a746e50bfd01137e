//! Lines as a person or a host types them: right ones in every form, and damaged ones.

mod damage;
mod out_of_range;
mod spelling;

pub use damage::damaged;
pub use out_of_range::out_of_range;
pub use spelling::{are_in_two_cases, identified, in_two_cases, spelled};

use crate::identification::near;
use crate::random::Random;

/// The digits of a line.
const SIX: usize = 6;

/// A command: its letter, the digits that mean something, and how many digits may stand in all.
#[derive(Clone, Debug)]
pub struct Order {
    letter: u8,
    digits: String,
    most: usize,
}

fn short(letter: u8, digits: String) -> Order {
    Order { letter, digits, most: SIX }
}

fn six(letter: u8, code: u32, five: u32) -> Order {
    short(letter, format!("{code:X}{five:05X}"))
}

pub fn distance(axis: usize, minus: bool, pulses: u32) -> Order {
    six(b'P', axis as u32, (minus as u32) << 19 | pulses)
}

pub fn speed(setting: u32) -> Order {
    six(b'P', 8, setting)
}

pub fn slope(setting: u32) -> Order {
    six(b'P', 9, setting)
}

pub fn dwell(ms: u32) -> Order {
    six(b'P', 0xA, ms)
}

pub fn watch(bits: u32) -> Order {
    short(b'P', format!("B{bits:X}"))
}

pub fn polarity(bits: u32) -> Order {
    six(b'P', 0xC, bits)
}

pub fn start(master: usize) -> Order {
    short(b'Q', format!("8{master:X}"))
}

pub fn start_after_dwell(master: usize) -> Order {
    start(master + 8)
}

pub fn stop() -> Order {
    short(b'Q', "9".into())
}

pub fn clear_wrong_master() -> Order {
    short(b'Q', "A".into())
}

pub fn reset_positions() -> Order {
    short(b'Q', "B".into())
}

pub fn carry_on() -> Order {
    short(b'Q', "C".into())
}

pub fn low_on(bits: u32) -> Order {
    six(b'Q', 0xD, bits)
}

pub fn high_on(bits: u32) -> Order {
    six(b'Q', 0xE, bits)
}

pub fn outputs(word: u32) -> Order {
    short(b'W', format!("{word:06X}"))
}

pub fn status() -> Order {
    short(b'Q', "6".into())
}

/// The query of the inputs, without digits.
pub fn inputs() -> Order {
    Order { letter: b'W', digits: String::new(), most: 0 }
}

/// A W line that is turned away: one to five digits, at times with a character behind them that is no digit, or six
/// and behind them what is no identification.
pub fn refused_w(random: &mut Random) -> Vec<u8> {
    let count = random.between(1, SIX as u32) as usize;
    let mut line = vec![b'W', random.pick(b"004")];
    line.extend((0..count).map(|_| random.digit()));
    if count == SIX || random.chance(30) {
        line.push(near(random));
    }
    line
}

/// One of the lines that only read: travel, status, position, everything, inputs.
pub fn reading(random: &mut Random) -> Order {
    match random.below(5) {
        0 => short(b'Q', random.below(5).to_string()),
        1 => status(),
        2 => short(b'q', random.below(5).to_string()),
        3 => short(b'q', "8".into()),
        _ => inputs(),
    }
}
