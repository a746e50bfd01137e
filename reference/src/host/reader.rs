//! Host end: the reader of one reply block, with number 20.

use crate::coded::{code_and_five, minus_and_travel, position_of};
use crate::command::{on_setting, start_named};
use crate::digit::{capital_digit_value, number_written, Digit};
use crate::line::LINE_END;

/// Turned away, 20: the number of bytes that are no block.
const NO_BLOCK: u8 = 20;

/// Host end: what a reply block was made from.
#[derive(Clone, Copy, Debug, PartialEq, Eq)]
pub enum Reading {
    /// U: 0, or the number of a turned-away line.
    Answer { number: u8 },
    /// S 0-4: minus bit and travel of the latest move.
    Travel { axis: u8, minus: bool, travel: u32 },
    /// S 6: status.
    Status { status: u32 },
    /// S 8, 9, A, B, C, D, E: the code and the five digits echoed.
    Echo { code: u8, five: u32 },
    /// s 0-4: position.
    Position { axis: u8, position: i32 },
    /// R: the inputs.
    Inputs { word: u32 },
}

/// Host end: one reply block.
#[derive(Clone, Copy, Debug, PartialEq, Eq)]
pub struct Block {
    pub switch: u8,
    pub identification: Option<Digit>,
    pub reading: Reading,
}

/// Turned away, 20: the switch digit isn't C, and like the six digits no small letter.
fn switch_digit(character: u8) -> Result<u8, u8> {
    capital_digit_value(character).filter(|&switch| switch != 12).ok_or(NO_BLOCK)
}

/// Replies: the value of the six digits, whose letters stay in capitals (paper 02, 7/14).
fn six_digit_value(characters: &[u8]) -> Result<u32, u8> {
    number_written(characters, capital_digit_value).map(|value| value as u32).ok_or(NO_BLOCK)
}

/// Replies: the identification between the six digits and 0D, if given; 0D ends the block. Paper 02, 7/14: either case.
fn block_identification(bytes: &[u8]) -> Result<Option<Digit>, u8> {
    match bytes.len() {
        9 if bytes[8] == LINE_END => Ok(None),
        10 if bytes[9] == LINE_END => Digit::read(bytes[8]).map(Some).ok_or(NO_BLOCK),
        _ => Err(NO_BLOCK),
    }
}

/// Turned away, 20: U has 0 or 4 to 17, and no identification for 4 to 7; a number that a later request adds for a line
/// (26) counts as 10 to 17 do.
fn answer_reading(value: u32, identification: Option<Digit>) -> Result<Reading, u8> {
    match value {
        0 | 8..=17 | 26 => Ok(Reading::Answer { number: value as u8 }),
        4..=7 if identification.is_none() => Ok(Reading::Answer { number: value as u8 }),
        _ => Err(NO_BLOCK),
    }
}

/// Replies: S 0-4, the minus bit with travel.
fn travel_reading(axis: u8, five: u32) -> Reading {
    let (minus, travel) = minus_and_travel(five);
    Reading::Travel { axis, minus, travel }
}

/// Turned away, 20: status bits 0 to 6 are free, the others 0.
fn status_reading(five: u32) -> Result<Reading, u8> {
    if five > 0x7F {
        return Err(NO_BLOCK);
    }
    Ok(Reading::Status { status: five })
}

/// Turned away, 20: the echo of an accepted Q line has that line's fields in their ranges.
fn echo_reading(code: u8, five: u32) -> Result<Reading, u8> {
    let taken = match code {
        0x8 => start_named((five >> 16) as u8).is_some(),
        0x9..=0xC => true,
        0xD | 0xE => on_setting(five, NO_BLOCK).is_ok(),
        _ => false,
    };
    if taken {
        Ok(Reading::Echo { code, five })
    } else {
        Err(NO_BLOCK)
    }
}

/// Replies: S.
fn capital_s_reading(value: u32) -> Result<Reading, u8> {
    let (code, five) = code_and_five(value);
    match code {
        0..=4 => Ok(travel_reading(code, five)),
        6 => status_reading(five),
        _ => echo_reading(code, five),
    }
}

/// Replies: s, code, position in 20-bit two's complement.
fn small_s_reading(value: u32) -> Result<Reading, u8> {
    let (axis, five) = code_and_five(value);
    if axis > 4 {
        return Err(NO_BLOCK);
    }
    Ok(Reading::Position { axis, position: position_of(five) })
}

/// Host end: reader of one reply block, its 0D included; number 20 for anything else.
pub fn read_block(bytes: &[u8]) -> Result<Block, u8> {
    let identification = block_identification(bytes)?;
    let switch = switch_digit(bytes[1])?;
    let value = six_digit_value(&bytes[2..8])?;
    let reading = match bytes[0] {
        b'U' => answer_reading(value, identification)?,
        b'S' => capital_s_reading(value)?,
        b's' => small_s_reading(value)?,
        b'R' => Reading::Inputs { word: value },
        _ => return Err(NO_BLOCK),
    };
    Ok(Block { switch, identification, reading })
}
