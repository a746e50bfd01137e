//! Starts: a start is checked by 12 to 17 and begins a move, at once or after the dwell.

use super::{Distances, Machine};

impl Machine {
    /// Turned away, 14: an axis is longer than the master.
    fn axis_longer_than(&self, master: u8) -> bool {
        let master_distance = self.next.pulses[master as usize];
        self.next.pulses.iter().any(|&distance| distance > master_distance)
    }

    /// Turned away, 17: the final position of one axis is out of range.
    fn final_position_out(&self, axis: usize, distances: &Distances) -> bool {
        let position = self.positions[axis] as i64;
        let distance = distances.pulses[axis] as i64;
        let last = if distances.minus[axis] { position - distance } else { position + distance };
        !(-524_288..=524_287).contains(&last)
    }

    /// Turned away, 12 and 13, in checking order.
    pub(super) fn check_inputs(&self) -> Result<(), u8> {
        if self.emergency_held {
            return Err(12);
        }
        if self.inputs.sensor_active() {
            return Err(13);
        }
        Ok(())
    }

    /// Turned away, 16 and 17, in checking order, over these distances.
    pub(super) fn check_ways(&self, distances: &Distances) -> Result<(), u8> {
        if self.blocked(distances) {
            return Err(16);
        }
        if (0..5).any(|axis| self.final_position_out(axis, distances)) {
            return Err(17);
        }
        Ok(())
    }

    /// Turned away, 12 to 17, in checking order.
    fn check_start(&self, master: u8) -> Result<(), u8> {
        self.check_inputs()?;
        if self.axis_longer_than(master) {
            return Err(14);
        }
        if self.next.pulses[master as usize] == 0 {
            return Err(15);
        }
        self.check_ways(&self.next)
    }

    /// A start and a carry-on (paper 02, 6/14): the latest move runs from speed and phase 0, its ticks are counted from
    /// here; bits 3 and 6 are cleared, the dwell ends and a stored start is dropped.
    pub(super) fn run_latest(&mut self) {
        self.moving = true;
        self.stopping = false;
        self.ramp_speed = 0;
        self.phase = 0;
        self.move_ticks = 0;
        self.dwell = 0;
        self.waiting = None;
        self.stopped = false;
        self.stopped_by_sensor = false;
        self.left_open = false;
    }

    /// The list of demand 3: a start takes effect and begins a move.
    fn begin_move(&mut self, master: u8) {
        self.latest = self.next;
        self.master = master as usize;
        self.travels = [0; 5];
        self.run_latest();
    }

    /// Turned away, 12 to 17: a start is tried; at 14 status bit 2 is set.
    pub(super) fn try_start(&mut self, master: u8) -> Result<(), u8> {
        match self.check_start(master) {
            Ok(()) => {
                self.begin_move(master);
                Ok(())
            }
            Err(14) => {
                self.wrong_master = true;
                Err(14)
            }
            Err(number) => Err(number),
        }
    }

    /// Lines: a start after the dwell is stored if a dwell runs and otherwise acts as a plain start.
    pub(super) fn start_after_dwell(&mut self, master: u8) -> Result<(), u8> {
        if self.dwell_runs() {
            self.waiting = Some(master);
            return Ok(());
        }
        self.try_start(master)
    }
}
