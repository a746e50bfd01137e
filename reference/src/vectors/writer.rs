//! Stored vectors, W: a command value by its numbers, and what the writer leaves in the line buffer.

use super::written_text;
use crate::command::{Command, CommandValue};
use crate::fields::{eight_digits, two_digits, zero_or_one};
use crate::host::write_line;

/// Stored vectors, W and A: the longest buffer.
pub const LONGEST_LINE_BUFFER: u8 = 0x40;

/// Stored vectors, W and A: each byte of the buffer before.
pub const BYTE_BEFORE: u8 = 0x5A;

/// Stored vectors: an identification is `--` where there is none, else the two digits of its character.
fn identification_field(field: &[u8]) -> Option<Option<u8>> {
    if field == b"--" {
        return Some(None);
    }
    two_digits(field).map(Some)
}

/// Stored vectors, commands: the start of a master, plain or after the dwell.
fn start_command(master: u8, after_dwell: bool) -> Command {
    if after_dwell {
        Command::StartAfterDwell { master }
    } else {
        Command::Start { master }
    }
}

/// Stored vectors, commands: the command of a number with what it uses of axis, flag and value.
fn command_of_number(number: u8, axis: u8, flag: bool, value: u32) -> Option<Command> {
    let command = match number {
        0x00 => Command::Distance { axis, minus: flag, pulses: value },
        0x01 => Command::Speed(value),
        0x02 => Command::Slope(value),
        0x03 => Command::Dwell(value),
        0x04 => Command::Watch(value & 0xFF),
        0x05 => Command::Polarity(value),
        0x06 => Command::ReadTravel { axis },
        0x07 => Command::ReadStatus,
        0x08 => start_command(axis, flag),
        0x09 => Command::Stop,
        0x0A => Command::ClearWrongMaster,
        0x0B => Command::ResetPositions,
        0x0C => Command::LowOn(value),
        0x0D => Command::HighOn(value),
        0x0E => Command::ReadPosition { axis },
        0x0F => Command::ReadEverything,
        0x10 => Command::ReadInputs,
        0x11 => Command::Outputs(value),
        0x12 => Command::CarryOn,
        _ => return None,
    };
    Some(command)
}

/// Stored vectors, W: the writer is run with a buffer of so many bytes.
fn run_writer(length: u8, value: &CommandValue) -> String {
    let mut buf = vec![BYTE_BEFORE; length as usize];
    match write_line(value, &mut buf) {
        Ok(written) => written_text(0, written, &buf),
        Err(number) => written_text(number, 0, &buf),
    }
}

/// Stored vectors, W: `W hh h hh hh h hhhhhhhh ii`.
pub(super) fn writer_line(fields: &[&[u8]]) -> Option<String> {
    let [length, silent, number, axis, flag, value, identification] = fields else {
        return None;
    };
    let length = two_digits(length).filter(|&length| length <= LONGEST_LINE_BUFFER)?;
    let silent = zero_or_one(silent)?;
    let (number, axis) = (two_digits(number)?, two_digits(axis)?);
    let command = command_of_number(number, axis, zero_or_one(flag)?, eight_digits(value)?)?;
    let identification = identification_field(identification)?;
    Some(run_writer(length, &CommandValue { command, silent, identification }))
}
