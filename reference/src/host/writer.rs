//! Host end: the writer, from a command value to its full line, with numbers 18 and 19.

use crate::coded::{coded, travel_digits};
use crate::command::{in_range, on_setting, Command, CommandValue};
use crate::command::{DISTANCES, DWELLS, OUTPUT_WORDS, POLARITIES, SLOPES, SPEEDS, WATCHES};
use crate::digit::Digit;
use crate::reply::assembled;

/// Turned away, 18: the least length of a line buffer.
pub const LEAST_LINE_BUFFER: usize = 10;

/// Turned away, 19: the number of a value without a line.
const NO_LINE: u8 = 19;

/// Host end: the letter of a command.
fn letter_of(command: Command) -> u8 {
    match command {
        Command::Distance { .. } | Command::Speed(_) | Command::Slope(_) => b'P',
        Command::Dwell(_) | Command::Watch(_) | Command::Polarity(_) => b'P',
        Command::ReadTravel { .. } | Command::ReadStatus | Command::Stop => b'Q',
        Command::Start { .. } | Command::StartAfterDwell { .. } => b'Q',
        Command::ClearWrongMaster | Command::ResetPositions | Command::CarryOn => b'Q',
        Command::LowOn(_) | Command::HighOn(_) => b'Q',
        Command::ReadPosition { .. } | Command::ReadEverything => b'q',
        Command::ReadInputs | Command::Outputs(_) => b'W',
    }
}

/// Turned away, 19: an axis or master over 4 has no line.
fn axis_in_range(axis: u8) -> Result<u8, u8> {
    if axis > 4 {
        return Err(NO_LINE);
    }
    Ok(axis)
}

/// Host end: the digits of a distance line; the top bit of the five is minus.
fn distance_digits(axis: u8, minus: bool, pulses: u32) -> Result<u32, u8> {
    let axis = axis_in_range(axis)?;
    let pulses = in_range(pulses, DISTANCES, NO_LINE)?;
    Ok(coded(axis, travel_digits(minus, pulses)))
}

/// Host end: the digits of a start line; the second digit is the master, or master plus 8 after the dwell.
fn start_digits(master: u8, after_dwell: bool) -> Result<u32, u8> {
    let master = axis_in_range(master)? as u32;
    let second = if after_dwell { master + 8 } else { master };
    Ok(coded(8, second << 16))
}

/// Host end: the six digits of a full line, those without meaning 0; none for a W query.
fn digits_of(command: Command) -> Result<Option<u32>, u8> {
    let value = match command {
        Command::Distance { axis, minus, pulses } => distance_digits(axis, minus, pulses)?,
        Command::Speed(setting) => coded(0x8, in_range(setting, SPEEDS, NO_LINE)?),
        Command::Slope(setting) => coded(0x9, in_range(setting, SLOPES, NO_LINE)?),
        Command::Dwell(ms) => coded(0xA, in_range(ms, DWELLS, NO_LINE)?),
        Command::Watch(bits) => coded(0xB, in_range(bits, WATCHES, NO_LINE)? << 16),
        Command::Polarity(bits) => coded(0xC, in_range(bits, POLARITIES, NO_LINE)?),
        Command::ReadTravel { axis } => coded(axis_in_range(axis)?, 0),
        Command::ReadStatus => coded(0x6, 0),
        Command::Start { master } => start_digits(master, false)?,
        Command::StartAfterDwell { master } => start_digits(master, true)?,
        Command::Stop => coded(0x9, 0),
        Command::ClearWrongMaster => coded(0xA, 0),
        Command::ResetPositions => coded(0xB, 0),
        Command::CarryOn => coded(0xC, 0),
        Command::LowOn(bits) => coded(0xD, on_setting(bits, NO_LINE)?),
        Command::HighOn(bits) => coded(0xE, on_setting(bits, NO_LINE)?),
        Command::ReadPosition { axis } => coded(axis_in_range(axis)?, 0),
        Command::ReadEverything => coded(0x8, 0),
        Command::ReadInputs => return Ok(None),
        Command::Outputs(word) => in_range(word, OUTPUT_WORDS, NO_LINE)?,
    };
    Ok(Some(value))
}

/// Turned away, 19: a character that is no digit of either case (paper 02, 7/14), or any with a W query, has no line.
fn identification_of(value: &CommandValue) -> Result<Option<Digit>, u8> {
    match (value.command, value.identification) {
        (_, None) => Ok(None),
        (Command::ReadInputs, Some(_)) => Err(NO_LINE),
        (_, Some(character)) => Digit::read(character).map(Some).ok_or(NO_LINE),
    }
}

/// Host end: the full line of a command value, with its 0D.
fn full_line(value: &CommandValue) -> Result<Vec<u8>, u8> {
    let digits = digits_of(value.command)?;
    let identification = identification_of(value)?;
    let second = if value.silent { b'4' } else { b'0' };
    Ok(assembled(letter_of(value.command), second, digits, identification))
}

/// Host end: writer from command value to full line; the length written, or number 18 or 19 in this order.
pub fn write_line(value: &CommandValue, buf: &mut [u8]) -> Result<usize, u8> {
    if buf.len() < LEAST_LINE_BUFFER {
        return Err(18);
    }
    let line = full_line(value)?;
    buf[..line.len()].copy_from_slice(&line);
    Ok(line.len())
}

/// Host end: the writer's line as text, without its 0D.
pub fn line_text(value: &CommandValue) -> Result<String, u8> {
    let mut buf = [0; LEAST_LINE_BUFFER];
    let length = write_line(value, &mut buf)?;
    Ok(buf[..length - 1].iter().map(|&character| character as char).collect())
}
