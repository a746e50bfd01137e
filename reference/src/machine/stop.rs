//! Stops (6.6 to 6.10): order 9, the position reset, and what emergency, sensor, limits and watch do in a tick.

use super::{Machine, WATCH_FULL};

impl Machine {
    /// Stops: a stop by order, limit or watch begins; bit 3 is set.
    fn stop_with_bit_3(&mut self) {
        self.stopping = true;
        self.stopped = true;
    }

    /// Stops: order 9 begins a stop of a running move, sets bit 3 there, and drops a stored start.
    pub(super) fn stop_by_order(&mut self) {
        self.waiting = None;
        if self.moving {
            self.stop_with_bit_3();
        }
    }

    /// Stops: a position reset zeroes positions and, with the emergency input inactive, frees the hold.
    pub(super) fn reset_positions(&mut self) {
        self.positions = [0; 5];
        if !self.inputs.emergency_active() {
            self.emergency_held = false;
        }
    }

    /// Lines: accepted lines, and lines turned away by 10 to 17, zero the watch count; a number that a later request
    /// adds for a line (26) counts as 10 to 17 do.
    pub(super) fn zero_watch_count(&mut self, number: u8) {
        if matches!(number, 0 | 10..=17 | 26) {
            self.watch_count = 0;
        }
    }

    /// Stops: raise the watch count by 1 up to 1,000,000.
    pub(super) fn raise_watch_count(&mut self) {
        if self.watch_count < WATCH_FULL {
            self.watch_count += 1;
        }
    }

    /// Stops: if emergency is active, hold it.
    pub(super) fn hold_emergency(&mut self) {
        if self.inputs.emergency_active() {
            self.emergency_held = true;
        }
    }

    /// Stops: at a full watch count with watch bit 1, clear the general outputs.
    pub(super) fn clear_outputs_by_watch(&mut self) {
        if self.watch_full() && self.watch & 2 != 0 {
            self.general_outputs = 0;
        }
    }

    /// Stops: begin a stop of a running move by emergency, sensor, limit or watch; set bits 3 and 6 by their causes.
    pub(super) fn begin_stop_by_cause(&mut self) {
        if !self.moving {
            return;
        }
        if self.emergency_held {
            self.stopping = true;
        }
        if self.inputs.sensor_active() {
            self.stopping = true;
            self.stopped_by_sensor = true;
        }
        if self.running_move_blocked() {
            self.stop_with_bit_3();
        }
        if self.watch_full() && self.watch & 1 != 0 {
            self.stop_with_bit_3();
        }
    }
}
