//! Moves that are stopped and carried on again and again (paper 02, 6/14).

use super::Operator;
use crate::bench::Bench;
use crate::bits::{in_dwell, MOVING};
use crate::line;
use reference::command::{FASTEST, STEEPEST};

/// A part of a move is run in so many runs of ticks at most.
const PARTS: u32 = 40;

impl Operator {
    /// Stops the move and runs it to its end, which is seldom its whole one; at times a carry-on comes too early.
    fn halt<B: Bench>(&mut self, bench: &mut B) {
        if self.random.chance(70) {
            self.order(bench, line::stop());
        } else {
            self.stop(bench);
        }
        if self.random.chance(10) {
            self.order(bench, line::carry_on());
        }
        while bench.machine().status() & MOVING != 0 && bench.ticks_left() > 0 {
            self.run_some(bench, 200);
        }
    }

    /// Runs a part of the move: mostly some pulses of its master, no more than a third of those that are left.
    fn run_part<B: Bench>(&mut self, bench: &mut B) {
        let sent = |bench: &B| bench.machine().travels().into_iter().fold(0, u32::max);
        let whole = bench.directed().into_iter().fold(0, |most, (distance, _)| most.max(distance));
        let goal = sent(bench) + self.random.below(whole.saturating_sub(sent(bench)) / 3 + 2);
        let early = self.random.below(4);
        self.run_calm(bench, early);
        for _ in 0..PARTS {
            if sent(bench) >= goal || bench.machine().status() & MOVING == 0 {
                return;
            }
            self.run_some(bench, self.usual_run);
        }
    }

    /// What a move that is often stopped is to have: at times a dwell behind each of its ends, and mostly some speed.
    fn start_lively<B: Bench>(&mut self, bench: &mut B) {
        let ms = self.random.between(1, 3);
        if self.random.chance(40) && self.order(bench, line::dwell(ms)) {
            self.dwell_ms = ms;
        }
        if self.random.chance(60) {
            self.order(bench, line::slope(STEEPEST));
        }
        self.start_move(bench);
        if self.random.chance(60) {
            self.order(bench, line::speed(FASTEST));
        }
    }

    /// A move that is stopped and carried on up to twelve times, at times before any pulse, and mostly left to its
    /// whole end then.
    pub(super) fn stutter<B: Bench>(&mut self, bench: &mut B) {
        self.start_lively(bench);
        for _ in 0..self.random.between(1, 12) {
            self.run_part(bench);
            self.halt(bench);
            if !bench.is_open() {
                return;
            }
            match self.random.below(10) {
                0..=1 => self.go_on(bench),
                2..=3 if in_dwell(bench.machine().status()) => self.go_on_in_dwell(bench),
                _ => self.carry_on_again(bench),
            }
        }
        self.leave_whole = self.random.chance(85);
    }
}
