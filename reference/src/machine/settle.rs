//! Paper 02, 3/14: the inputs settle before the block of a W line comes, in the answer of a tick.

use super::Machine;
use crate::command::Command;
use crate::digit::Digit;
use crate::line::ReadLine;

/// Paper 02, 3/14: the block of a W line comes in the answer of this accepted tick after it.
const SETTLED: u32 = 2_500;

/// Paper 02, 3/14: a block that is still to come, with the accepted ticks since its line and its identification, which
/// is returned as the very character (7/14).
#[derive(Clone, Copy, Debug, PartialEq, Eq)]
pub(super) struct Settling {
    ticks: u32,
    identification: Option<Digit>,
}

impl Machine {
    /// Paper 02, 3/14: an accepted W, query or not, takes the place of an earlier one; a silent one gives no block.
    pub(super) fn settle_after(&mut self, read: &ReadLine, silent: bool) {
        if !matches!(read.command, Command::ReadInputs | Command::Outputs(_)) {
            return;
        }
        let identification = read.identification;
        self.settling = if silent { None } else { Some(Settling { ticks: 0, identification }) };
    }

    /// Paper 02, 3/14: an accepted tick counts; the 2,500th after the line has its block, with that tick's inputs.
    pub(super) fn settled_block(&mut self) -> Vec<u8> {
        let Some(Settling { ticks, identification }) = self.settling else {
            return Vec::new();
        };
        if ticks + 1 < SETTLED {
            self.settling = Some(Settling { ticks: ticks + 1, identification });
            return Vec::new();
        }
        self.settling = None;
        self.inputs_block(identification)
    }
}
