//! Stops (6.6 to 6.10): blocked axes, a running dwell, a full watch count, and the status that shows them.

use super::{Distances, Machine, WATCH_FULL};
use crate::output::put_bit;

impl Machine {
    /// Stops: some axis of a move is blocked; commands use the last tick's word.
    pub(super) fn blocked(&self, distances: &Distances) -> bool {
        self.inputs.some_axis_blocked(distances.pulses, distances.minus)
    }

    /// Stops: some axis of the running (latest) move is blocked.
    pub(super) fn running_move_blocked(&self) -> bool {
        self.blocked(&self.latest)
    }

    /// Stops: some axis of the next move is blocked.
    fn next_move_blocked(&self) -> bool {
        self.blocked(&self.next)
    }

    /// Stops: status bit 4, running move's distances, else the next move's.
    fn blocked_for_status(&self) -> bool {
        if self.moving {
            self.running_move_blocked()
        } else {
            self.next_move_blocked()
        }
    }

    /// Ramp: a dwell runs while ticks of it are left.
    pub(super) fn dwell_runs(&self) -> bool {
        self.dwell > 0
    }

    /// Stops: the watch count is full.
    pub(super) fn watch_full(&self) -> bool {
        self.watch_count >= WATCH_FULL
    }

    /// Stops: the status, bit by bit from bit 0.
    pub fn status(&self) -> u32 {
        let bits = [
            self.moving || self.dwell_runs(),
            self.moving,
            self.wrong_master,
            self.stopped,
            self.blocked_for_status(),
            self.emergency_held,
            self.stopped_by_sensor,
        ];
        (0..).zip(bits).fold(0, |status, (number, value)| put_bit(status, number, value))
    }
}
