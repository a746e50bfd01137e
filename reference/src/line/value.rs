//! Turned away, 10: the six digits of a line, absent ones 0, become its command.

use crate::coded::minus_and_travel;
use crate::command::{in_range, on_setting, start_named, Command, DWELLS, POLARITIES, SLOPES, SPEEDS, WATCHES};
use crate::digit::number_of;

/// Turned away, 10: the number of a line with a value outside its range.
const OUTSIDE: u8 = 10;

/// Lines: the figure of the five digits after the code.
fn five_of(six: &[u8; 6]) -> u32 {
    number_of(&six[1..]) as u32
}

/// Lines: P 0-4 distance; the top bit of the five digits is minus.
fn distance(axis: u8, five: u32) -> Command {
    let (minus, pulses) = minus_and_travel(five);
    Command::Distance { axis, minus, pulses }
}

/// Lines: P.
pub(super) fn read_p(code: u8, six: &[u8; 6]) -> Result<Command, u8> {
    let five = five_of(six);
    match code {
        0..=4 => Ok(distance(code, five)),
        8 => Ok(Command::Speed(in_range(five, SPEEDS, OUTSIDE)?)),
        9 => Ok(Command::Slope(in_range(five, SLOPES, OUTSIDE)?)),
        0xA => Ok(Command::Dwell(in_range(five, DWELLS, OUTSIDE)?)),
        0xB => Ok(Command::Watch(in_range(six[1] as u32, WATCHES, OUTSIDE)?)),
        _ => Ok(Command::Polarity(in_range(five, POLARITIES, OUTSIDE)?)),
    }
}

/// Lines: Q.
pub(super) fn read_capital_q(code: u8, six: &[u8; 6]) -> Result<Command, u8> {
    let five = five_of(six);
    match code {
        0..=4 => Ok(Command::ReadTravel { axis: code }),
        6 => Ok(Command::ReadStatus),
        8 => start_named(six[1]).ok_or(OUTSIDE),
        9 => Ok(Command::Stop),
        0xA => Ok(Command::ClearWrongMaster),
        0xB => Ok(Command::ResetPositions),
        0xC => Ok(Command::CarryOn),
        0xD => Ok(Command::LowOn(on_setting(five, OUTSIDE)?)),
        _ => Ok(Command::HighOn(on_setting(five, OUTSIDE)?)),
    }
}

/// Lines: q.
pub(super) fn read_small_q(code: u8) -> Command {
    match code {
        0..=4 => Command::ReadPosition { axis: code },
        _ => Command::ReadEverything,
    }
}

/// Lines: W, none (query) or six digits: general outputs.
pub(super) fn read_w(digits: &[u8]) -> Command {
    if digits.is_empty() {
        Command::ReadInputs
    } else {
        Command::Outputs(number_of(digits) as u32)
    }
}
