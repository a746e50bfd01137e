//! Replies: the blocks that answer an accepted line.

use super::Machine;
use crate::coded::{coded, position_digits, travel_digits};
use crate::command::Command;
use crate::digit::{number_of, Digit};
use crate::line::ReadLine;
use crate::reply::block;

impl Machine {
    /// Replies: U, six digits 0.
    fn taken_block(&self, identification: Option<Digit>) -> Vec<u8> {
        block(b'U', self.switch, 0, identification)
    }

    /// Replies: S, code, the latest move's minus bit with travel.
    fn travel_block(&self, axis: u8, identification: Option<Digit>) -> Vec<u8> {
        let k = axis as usize;
        let value = coded(axis, travel_digits(self.latest.minus[k], self.travels[k]));
        block(b'S', self.switch, value, identification)
    }

    /// Replies: S, code 6, status.
    fn status_block(&self, identification: Option<Digit>) -> Vec<u8> {
        block(b'S', self.switch, coded(6, self.status()), identification)
    }

    /// Replies: s, code, position in 20-bit two's complement.
    fn position_block(&self, axis: u8, identification: Option<Digit>) -> Vec<u8> {
        let value = coded(axis, position_digits(self.positions[axis as usize]));
        block(b's', self.switch, value, identification)
    }

    /// Replies: R with the last tick's inputs, which are those of the tick itself in its own answer.
    pub(super) fn inputs_block(&self, identification: Option<Digit>) -> Vec<u8> {
        block(b'R', self.switch, self.inputs.word, identification)
    }

    /// Replies: q 8 answers the five S travels, S status, five s, R, each with the identification.
    fn everything_blocks(&self, identification: Option<Digit>) -> Vec<u8> {
        let mut bytes = Vec::new();
        for axis in 0..5 {
            bytes.extend(self.travel_block(axis, identification));
        }
        bytes.extend(self.status_block(identification));
        for axis in 0..5 {
            bytes.extend(self.position_block(axis, identification));
        }
        bytes.extend(self.inputs_block(identification));
        bytes
    }

    /// Replies: S echoing, absent digits 0.
    fn echo_block(&self, digits: [u8; 6], identification: Option<Digit>) -> Vec<u8> {
        block(b'S', self.switch, number_of(&digits) as u32, identification)
    }

    /// Replies: the reply to an accepted line; paper 02, 3/14: the block of a W line comes later, in a tick.
    pub(super) fn accepted_reply(&self, read: &ReadLine) -> Vec<u8> {
        let identification = read.identification;
        match read.command {
            Command::Distance { .. } | Command::Speed(_) | Command::Slope(_) => self.taken_block(identification),
            Command::Dwell(_) | Command::Watch(_) | Command::Polarity(_) => self.taken_block(identification),
            Command::ReadTravel { axis } => self.travel_block(axis, identification),
            Command::ReadStatus => self.status_block(identification),
            Command::Start { .. } | Command::StartAfterDwell { .. } | Command::Stop => {
                self.echo_block(read.digits, identification)
            }
            Command::ClearWrongMaster | Command::ResetPositions | Command::CarryOn => {
                self.echo_block(read.digits, identification)
            }
            Command::LowOn(_) | Command::HighOn(_) => self.echo_block(read.digits, identification),
            Command::ReadPosition { axis } => self.position_block(axis, identification),
            Command::ReadEverything => self.everything_blocks(identification),
            Command::ReadInputs | Command::Outputs(_) => Vec::new(),
        }
    }
}
