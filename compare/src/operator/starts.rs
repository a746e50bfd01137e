//! Distances and starts: most are right, some meet 14, 15 and 17.

use super::{any_axis, Operator, AXES};
use crate::bench::Bench;
use crate::bits::MOVING;
use crate::line;
use reference::command::{FASTEST, LONGEST, STEEPEST};

/// More ticks than the longest move takes at the greatest speed and slope.
const LONGEST_MOVE: u32 = 540_000;

impl Operator {
    /// The master's distance: of the operator's usual size, or of any.
    pub(super) fn master_distance(&mut self) -> u32 {
        match self.random.below(40) {
            0 => LONGEST,
            1..=3 => self.random.spread(LONGEST),
            5 => 0,
            _ => self.random.spread(self.usual_distance),
        }
    }

    /// Another axis's distance: crooked, at rest, level with the master, just short of it; seldom longer.
    fn other_distance(&mut self, master: u32) -> u32 {
        match self.random.below(50) {
            0 => (master + 1).min(LONGEST),
            1..=9 => 0,
            10..=15 => master,
            16..=19 => master.saturating_sub(1),
            20..=22 => 1.min(master),
            _ => self.random.below(master + 1),
        }
    }

    /// A direction that ends in range, where the operator minds it.
    pub(super) fn direction<B: Bench>(&mut self, bench: &B, axis: usize, distance: u32) -> bool {
        let (position, distance) = (bench.machine().positions()[axis], distance as i32);
        if self.random.chance(97) && position + distance > LONGEST as i32 {
            return true;
        }
        if self.random.chance(97) && position - distance < -(LONGEST as i32) {
            return false;
        }
        self.random.chance(50)
    }

    /// Sets five distances; seldom another axis than the longest is to be master.
    pub(super) fn set_distances<B: Bench>(&mut self, bench: &mut B) {
        self.master = any_axis(&mut self.random);
        let longest = self.master_distance();
        for axis in 0..AXES {
            let distance = if axis == self.master { longest } else { self.other_distance(longest) };
            let minus = self.direction(bench, axis, distance);
            self.order(bench, line::distance(axis, minus, distance));
        }
        if self.random.chance(3) {
            self.master = any_axis(&mut self.random);
        }
    }

    /// How the next move is to be treated.
    pub(super) fn make_up_mind(&mut self) {
        self.leave_whole = self.random.chance(60);
        self.patience = self.random.between(10, 60);
    }

    /// Sets a move and starts it under a calm word.
    pub(super) fn start_move<B: Bench>(&mut self, bench: &mut B) {
        self.set_distances(bench);
        if self.random.chance(50) {
            self.set_speed(bench);
        }
        if self.random.chance(50) {
            self.set_slope(bench);
        }
        self.run_calm(bench, 1);
        let (plain, master) = (self.random.chance(75), self.master);
        self.order(bench, if plain { line::start(master) } else { line::start_after_dwell(master) });
        self.make_up_mind();
    }

    pub(super) fn time_for_longest<B: Bench>(&self, bench: &B) -> bool {
        bench.ticks_left() > LONGEST_MOVE
    }

    /// The longest move to its end, other axes level with the master, just short of it or crooked: a remainder and a
    /// distance together then come to the most that moves meet (paper 02, 4/14).
    pub(super) fn longest_move<B: Bench>(&mut self, bench: &mut B) {
        self.master = any_axis(&mut self.random);
        self.order(bench, line::reset_positions());
        for axis in 0..AXES {
            let crooked = self.random.below(LONGEST);
            let short = self.random.pick(&[0, 1, 1, 2, crooked]);
            let distance = if axis == self.master { LONGEST } else { LONGEST - short };
            let minus = self.random.chance(50);
            self.order(bench, line::distance(axis, minus, distance));
        }
        self.order(bench, line::speed(FASTEST));
        self.order(bench, line::slope(STEEPEST));
        self.run_calm(bench, 1);
        self.order(bench, line::start(self.master));
        while bench.machine().status() & MOVING != 0 && bench.ticks_left() > 0 {
            self.run_some(bench, LONGEST_MOVE);
        }
    }

    /// A start towards a position out of range: an axis goes on for the longest distance.
    pub(super) fn start_too_far<B: Bench>(&mut self, bench: &mut B) {
        self.set_distances(bench);
        let position = bench.machine().positions()[self.master];
        self.order(bench, line::distance(self.master, position < 0, LONGEST));
        self.run_calm(bench, 1);
        self.order(bench, line::start(self.master));
        self.make_up_mind();
    }
}
