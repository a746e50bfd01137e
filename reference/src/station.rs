//! Paper 02, 8/14: a command of the other bench make, the MD5230D (source document 001), becomes up to six command
//! values for the writer.

mod form;
mod names;
mod number;

use crate::command::{in_range, Command, CommandValue, DISTANCES};
use crate::host::pick_master;
use form::{Asked, Distance};
use std::ops::RangeInclusive;

pub use form::NULL;
pub use names::{CONVERTED, NAMES};

/// 8/14: the most command values of one command.
pub const MOST_VALUES: usize = 6;

/// Turned away, 27: a name that is not in the document's list, or one of the four commands in another form.
const NO_COMMAND: u8 = 27;

/// Turned away, 28: a command of the document that this bench lacks.
const LACKED: u8 = 28;

/// Turned away, 29: a speed or a distance out of range.
const OUT_OF_RANGE: u8 = 29;

/// 8/14: the speeds in pps that are converted.
const SPEEDS_IN_PPS: RangeInclusive<u32> = 1..=250_000;

/// 8/14: n pps becomes 4n units.
const UNITS_OF_ONE_PPS: u32 = 4;

/// 8/14: X is axis 0, Y axis 1, the other axes get distance 0.
const AXES: usize = 5;

/// 8/14: what a command is converted to: a number, or 0 and so many command values in the front places of the six.
#[derive(Clone, Copy, Debug, PartialEq, Eq)]
pub struct Converted {
    pub number: u8,
    pub count: usize,
    pub values: [CommandValue; MOST_VALUES],
}

impl Converted {
    /// 8/14: the command values, in order.
    pub fn used(&self) -> &[CommandValue] {
        &self.values[..self.count]
    }
}

/// 8/14: each asks for a reply and carries no identification.
fn value(command: Command) -> CommandValue {
    CommandValue { command, silent: false, identification: None }
}

/// Lines of the other bench make: places that are not used hold a reading of the status.
fn in_places(number: u8, commands: &[Command]) -> Converted {
    let mut values = [value(Command::ReadStatus); MOST_VALUES];
    for (place, &command) in values.iter_mut().zip(commands) {
        *place = value(command);
    }
    Converted { number, count: commands.len(), values }
}

/// 8/14: the speed in units, or 29.
fn speed_command(pps: u32) -> Result<Command, u8> {
    let pps = in_range(pps, SPEEDS_IN_PPS, OUT_OF_RANGE)?;
    Ok(Command::Speed(UNITS_OF_ONE_PPS * pps))
}

/// 8/14: the distance of one axis, a 0 as plus, or 29.
fn distance_command(axis: u8, distance: Distance) -> Result<Command, u8> {
    let pulses = in_range(distance.pulses, DISTANCES, OUT_OF_RANGE)?;
    Ok(Command::Distance { axis, minus: distance.minus && pulses != 0, pulses })
}

/// 8/14: for a move the distances of axes 0 to 4, then the plain start with the picker's master.
fn move_commands(x: Distance, y: Distance) -> Result<Vec<Command>, u8> {
    let mut distances = [Distance::default(); AXES];
    (distances[0], distances[1]) = (x, y);
    let mut commands = Vec::new();
    for (axis, &distance) in (0..).zip(&distances) {
        commands.push(distance_command(axis, distance)?);
    }
    commands.push(Command::Start { master: pick_master(distances.map(|distance| distance.pulses)) });
    Ok(commands)
}

/// 8/14: the commands of what is asked for, or 29. INC moves one axis, LNI two; SST becomes the stop order.
fn commands_of(asked: Asked) -> Result<Vec<Command>, u8> {
    match asked {
        Asked::Speed { pps } => Ok(vec![speed_command(pps)?]),
        Asked::Move { x, y } => move_commands(x, y),
        Asked::Stop => Ok(vec![Command::Stop]),
    }
}

/// 8/14: the commands, or 27, 28 and 29 in this order. Of a command that this bench lacks the form is not judged.
fn commands(command: &[u8]) -> Result<Vec<Command>, u8> {
    let name = names::name_of(command);
    if !NAMES.contains(&name) {
        return Err(NO_COMMAND);
    }
    if !CONVERTED.contains(&name) {
        return Err(LACKED);
    }
    commands_of(form::read(command).ok_or(NO_COMMAND)?)
}

/// 8/14: the bytes of one command, its 00 included, are converted. This is total: any bytes have an answer.
pub fn convert(command: &[u8]) -> Converted {
    match commands(command) {
        Ok(commands) => in_places(0, &commands),
        Err(number) => in_places(number, &[]),
    }
}
