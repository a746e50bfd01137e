//! What the accepted lines of a list have set, as far as counters and trials ask.

use crate::bits::in_dwell;
use crate::coverage::Blocks;
use crate::operator::POWER_ON_WATCH;
use reference::command::Command;
use reference::line::{is_silent, read_line};

#[derive(Clone, Copy, Debug)]
pub struct Followed {
    /// The distances of the next move.
    pub distances: [u32; 5],
    /// The watch, and whether a watch line has been accepted since power-on.
    pub watch: u32,
    pub watch_set: bool,
    /// The block of a W line is still to come.
    pub settling: bool,
    /// A start waits in the dwell.
    pub waiting: bool,
}

impl Followed {
    pub fn power_on() -> Followed {
        Followed { distances: [0; 5], watch: POWER_ON_WATCH, watch_set: false, settling: false, waiting: false }
    }

    /// A W line takes the place of one whose block is still to come.
    fn w_line(&mut self, asks: bool, blocks: &mut Blocks) {
        blocks.w_line(asks, self.settling);
        self.settling = asks;
    }

    /// An accepted line, and the status before it.
    pub fn accepted(&mut self, line: &[u8], status: u32, blocks: &mut Blocks) {
        let Ok(read) = read_line(line) else { return };
        match read.command {
            Command::Distance { axis, pulses, .. } => self.distances[axis as usize] = pulses,
            Command::Watch(bits) => (self.watch, self.watch_set) = (bits, true),
            Command::StartAfterDwell { .. } => self.waiting = in_dwell(status),
            Command::Start { .. } | Command::Stop | Command::CarryOn => self.waiting = false,
            Command::ReadInputs | Command::Outputs(_) => self.w_line(!is_silent(line), blocks),
            _ => {}
        }
    }

    /// A tick that has answered so many bytes of a block, and the status after it. A start waits no longer than the
    /// dwell.
    pub fn ticked(&mut self, block: usize, status: u32) {
        self.settling &= block == 0;
        self.waiting &= in_dwell(status);
    }
}

#[cfg(test)]
mod tests {
    use super::*;
    use crate::bits::{BUSY, MOVING};

    #[test]
    fn a_start_waits_until_the_dwell_ends() {
        let (mut followed, mut blocks) = (Followed::power_on(), Blocks::default());
        followed.accepted(b"Q088", 0, &mut blocks);
        assert!(!followed.waiting);
        let lines =
            [("Q488", true), ("P0000005", true), ("Q09", false), ("Q08C", true), ("Q0C", false), ("Q089", true)];
        for (line, waits) in lines {
            followed.accepted(line.as_bytes(), BUSY, &mut blocks);
            assert_eq!(followed.waiting, waits);
        }
        followed.ticked(0, BUSY);
        assert!(followed.waiting);
        followed.ticked(0, BUSY | MOVING);
        assert!(!followed.waiting);
        assert_eq!(followed.distances, [5, 0, 0, 0, 0]);
    }
}
