//! Ramp and shares: the running move goes on for one tick, sends its pulses and ends; its end answers an entry.

use super::{Machine, TICKS_PER_MS};
use crate::journal::{Entry, COMPLETE, STOPPED};
use crate::ramp::{running_tick, stopping_tick, RampTick};
use crate::share::shares;

impl Machine {
    /// Paper 02, 6/14: short of M. Only a stop ends a move so.
    fn short_of_the_whole(&self) -> bool {
        let (master_distance, m) = self.master_distance_and_travel();
        m < master_distance
    }

    /// Ramp: at any end u and phase become 0 and the dwell starts, 250 ticks for each ms set.
    fn end_move(&mut self) {
        self.moving = false;
        self.stopping = false;
        self.ramp_speed = 0;
        self.phase = 0;
        self.dwell = TICKS_PER_MS * self.dwell_ms;
        self.left_open = self.short_of_the_whole();
    }

    /// Shares: M and m, the master's distance and its travel.
    fn master_distance_and_travel(&self) -> (u32, u32) {
        (self.latest.pulses[self.master], self.travels[self.master])
    }

    /// Shares: at a master pulse every axis's travel becomes its share, so each axis sends one pulse or none.
    fn master_pulse(&mut self) -> [i8; 5] {
        let (master_distance, m) = self.master_distance_and_travel();
        let travels = shares(m + 1, self.latest.pulses, master_distance);
        let mut pulses = [0; 5];
        for axis in 0..5 {
            if travels[axis] > self.travels[axis] {
                pulses[axis] = if self.latest.minus[axis] { -1 } else { 1 };
            }
            self.travels[axis] = travels[axis];
            self.positions[axis] += pulses[axis] as i32;
        }
        pulses
    }

    /// Ramp: the ramp of this tick.
    fn ramp_tick(&self) -> RampTick {
        let (master_distance, m) = self.master_distance_and_travel();
        if self.stopping {
            stopping_tick(self.ramp_speed, self.phase, self.slope)
        } else {
            running_tick(self.ramp_speed, self.phase, self.slope, self.speed, master_distance, m)
        }
    }

    /// Ramp: the move goes on with this speed and phase; at m = M it ends.
    fn go_on(&mut self, speed: u64, phase: u64, pulse: bool) -> [i8; 5] {
        self.ramp_speed = speed;
        self.phase = phase;
        let pulses = if pulse { self.master_pulse() } else { [0; 5] };
        let (master_distance, m) = self.master_distance_and_travel();
        if m == master_distance {
            self.end_move();
        }
        pulses
    }

    /// Ramp: one tick of a running move.
    fn move_tick(&mut self) -> [i8; 5] {
        match self.ramp_tick() {
            RampTick::Ended => {
                self.end_move();
                [0; 5]
            }
            RampTick::Going { speed, phase, pulse } => self.go_on(speed, phase, pulse),
        }
    }

    /// Journal: the cause of an end is 0 where m reached M, else 1.
    fn cause(&self) -> u8 {
        let (master_distance, m) = self.master_distance_and_travel();
        if m == master_distance {
            COMPLETE
        } else {
            STOPPED
        }
    }

    /// Journal: the five signed travels, in the latest move's directions.
    fn signed_travels(&self) -> [i32; 5] {
        let mut travels = self.travels.map(|travel| travel as i32);
        for (travel, minus) in travels.iter_mut().zip(self.latest.minus) {
            if minus {
                *travel = -*travel;
            }
        }
        travels
    }

    /// Journal: the tick that ends a move, and no other, answers its entry.
    fn entry_at_end(&self) -> Option<Entry> {
        if self.moving {
            return None;
        }
        Some(Entry { ticks: self.move_ticks, cause: self.cause(), travels: self.signed_travels() })
    }

    /// Ramp: ramp and pulses of one tick, and the entry of a move that ends in it; the tick counts as moved.
    pub(super) fn ramp_and_pulses(&mut self) -> ([i8; 5], Option<Entry>) {
        if !self.moving {
            return ([0; 5], None);
        }
        self.move_ticks += 1;
        let pulses = self.move_tick();
        (pulses, self.entry_at_end())
    }
}
