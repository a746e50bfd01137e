//! From words, first table: words that become a line of the controller.

use super::asked::Asked;
use super::numbers::{axis, decimal, figure, hexadecimal, signed};
use super::Told;
use crate::command::{Command, CommandValue};
use crate::figures::{command_of, Setting};
use crate::host::line_text;

/// From words: the words with a whole number, or with none.
fn whole_command(words: &[&[u8]]) -> Option<Command> {
    let command = match words {
        [b"start", master] => Command::Start { master: axis(master)? },
        [b"start", master, b"after", b"dwell"] => Command::StartAfterDwell { master: axis(master)? },
        [b"travel", number] => Command::ReadTravel { axis: axis(number)? },
        [b"position", number] => Command::ReadPosition { axis: axis(number)? },
        [b"dwell", ms] => Command::Dwell(decimal(ms)?),
        [b"watch", bits] => Command::Watch(decimal(bits)?),
        [b"polarity", bits] => Command::Polarity(hexadecimal(bits)?),
        [b"low", bits] => Command::LowOn(hexadecimal(bits)?),
        [b"high", bits] => Command::HighOn(hexadecimal(bits)?),
        [b"outputs", word] => Command::Outputs(hexadecimal(word)?),
        [b"distance", number, distance] => {
            let (minus, pulses) = signed(distance)?;
            Command::Distance { axis: axis(number)?, minus, pulses }
        }
        [b"stop"] => Command::Stop,
        [b"status"] => Command::ReadStatus,
        [b"everything"] => Command::ReadEverything,
        [b"inputs"] => Command::ReadInputs,
        [b"clear"] => Command::ClearWrongMaster,
        [b"reset"] => Command::ResetPositions,
        [b"carry", b"on"] => Command::CarryOn,
        _ => return None,
    };
    Some(command)
}

/// From words: the command of the words, or 21 of a speed or slope; `None` where they have no form.
fn command(words: &[&[u8]]) -> Option<Result<Command, u8>> {
    match words {
        [b"speed", hertz] => Some(figure(hertz)?.and_then(|hertz| command_of(Setting::Speed(hertz)))),
        [b"slope", slope] => Some(figure(slope)?.and_then(|slope| command_of(Setting::Slope(slope)))),
        _ => whole_command(words).map(Ok),
    }
}

/// From words: the writer's line of the words without its 0D, or the number that turns them away. A figure is judged
/// (21) before there is a command value for the writer (19).
pub(super) fn told(asked: &Asked, words: &[&[u8]]) -> Option<Told> {
    let (silent, identification) = (asked.silent, asked.identification);
    let line = |command| line_text(&CommandValue { command, silent, identification });
    Some(command(words)?.and_then(line))
}
