//! Lines (chapter 7, 9): received bytes make lines, and lines have their effect or are turned away by 4 to 17
//! and 26.

use super::{ByteAnswer, Machine, LEAST_REPLY_BUFFER};
use crate::command::Command;
use crate::line::{identification, is_silent, read_line, ReadLine, LINE_END, MOST_CHARACTERS};
use crate::reply::turned_away;

/// Turned away, 11: any start, a carry-on, and any P but speed, waits for the end of a move.
fn needs_rest(command: Command) -> bool {
    let start = matches!(command, Command::Start { .. } | Command::StartAfterDwell { .. });
    let distance_slope_dwell = matches!(command, Command::Distance { .. } | Command::Slope(_) | Command::Dwell(_));
    let watch_polarity = matches!(command, Command::Watch(_) | Command::Polarity(_));
    start || command == Command::CarryOn || distance_slope_dwell || watch_polarity
}

impl Machine {
    /// Turned away, 11: a move runs.
    fn check_no_move(&self, command: Command) -> Result<(), u8> {
        if self.moving && needs_rest(command) {
            return Err(11);
        }
        Ok(())
    }

    /// Lines: an accepted distance line sets the next move; paper 02, 6/14: nothing can be carried on after it.
    fn set_distance(&mut self, axis: usize, minus: bool, pulses: u32) {
        self.next.pulses[axis] = pulses;
        self.next.minus[axis] = minus;
        self.left_open = false;
    }

    /// Lines: an accepted command has its effect, or a start or carry-on is turned away by 12 to 17 and 26.
    fn act(&mut self, command: Command) -> Result<(), u8> {
        match command {
            Command::Distance { axis, minus, pulses } => self.set_distance(axis as usize, minus, pulses),
            Command::Speed(setting) => self.speed = setting,
            Command::Slope(setting) => self.slope = setting,
            Command::Dwell(ms) => self.dwell_ms = ms,
            Command::Watch(bits) => self.watch = bits,
            Command::Polarity(bits) => self.polarity = bits,
            Command::Start { master } => self.try_start(master)?,
            Command::StartAfterDwell { master } => self.start_after_dwell(master)?,
            Command::Stop => self.stop_by_order(),
            Command::ClearWrongMaster => self.wrong_master = false,
            Command::ResetPositions => self.reset_positions(),
            Command::CarryOn => self.carry_on()?,
            Command::LowOn(bits) => self.inputs.low_on = bits,
            Command::HighOn(bits) => self.inputs.high_on = bits,
            Command::Outputs(word) => self.general_outputs = word,
            Command::ReadTravel { .. } | Command::ReadStatus | Command::ReadPosition { .. } => {}
            Command::ReadEverything | Command::ReadInputs => {}
        }
        Ok(())
    }

    /// Turned away, 4 to 17 and 26, in checking order.
    fn take_line(&mut self, line: &[u8]) -> Result<ReadLine, u8> {
        let read = read_line(line)?;
        self.check_no_move(read.command)?;
        self.act(read.command)?;
        Ok(read)
    }

    /// Lines: a whole line is accepted or turned away; the reply and the number, 0 where it is accepted.
    fn whole_line(&mut self, line: &[u8]) -> (Vec<u8>, u8) {
        let (reply, number) = match self.take_line(line) {
            Ok(read) => {
                self.settle_after(&read, is_silent(line));
                (self.accepted_reply(&read), 0)
            }
            Err(number) => (turned_away(self.switch, number, identification(line)), number),
        };
        self.zero_watch_count(number);
        if is_silent(line) {
            return (Vec::new(), number);
        }
        (reply, number)
    }

    /// Lines: a character before 0D joins the half-received line; past ten characters it is only known to be too long.
    fn keep_character(&mut self, character: u8) {
        if self.line.len() <= MOST_CHARACTERS {
            self.line.push(character);
        }
    }

    /// Lines: the receiver takes one byte a call; the reply is the front part of the lent buffer.
    pub fn byte(&mut self, b: u8, buf: &mut [u8]) -> ByteAnswer {
        if buf.len() < LEAST_REPLY_BUFFER {
            return ByteAnswer { len: 0, number: 2 };
        }
        if b != LINE_END {
            self.keep_character(b);
            return ByteAnswer { len: 0, number: 0 };
        }
        let line = std::mem::take(&mut self.line);
        let (reply, number) = self.whole_line(&line);
        buf[..reply.len()].copy_from_slice(&reply);
        ByteAnswer { len: reply.len(), number }
    }
}
