//! What an operator does in a dwell: starts that wait, and how the dwell runs out.

use super::{any_axis, Operator};
use crate::bench::Bench;
use crate::line;
use reference::machine::TICKS_PER_MS;

impl Operator {
    pub(super) fn in_dwell<B: Bench>(&mut self, bench: &mut B) {
        if self.likes_to_go_on(bench) {
            self.go_on_in_dwell(bench);
            return;
        }
        match self.random.below(22) {
            0..=8 => self.store_start(bench),
            9..=11 => self.start_move(bench),
            12 => {
                self.order(bench, line::stop());
            }
            13 => self.set_something(bench),
            14 => self.mistake(bench),
            15 => self.read(bench),
            16 => bench.oddity(&mut self.random),
            17 => self.settle(bench),
            18 => self.settle_beside_start(bench),
            19 => self.two_cases(bench),
            20 => self.station_move(bench),
            _ => {}
        }
        self.run_dwell(bench);
    }

    /// Stores a start, at times another after it, and at times with distances that come later.
    pub(super) fn store_start<B: Bench>(&mut self, bench: &mut B) {
        self.set_distances(bench);
        self.order(bench, line::start_after_dwell(self.master));
        match self.random.below(8) {
            0 => {
                let other = any_axis(&mut self.random);
                self.order(bench, line::start_after_dwell(other));
            }
            1 => {
                self.set_distances(bench);
                self.order(bench, line::start_after_dwell(self.master));
            }
            2 => {
                self.order(bench, line::stop());
            }
            _ => {}
        }
        self.make_up_mind();
    }

    /// Runs a part of the dwell, or all of it, at times with an input that acts in its last ticks.
    fn run_dwell<B: Bench>(&mut self, bench: &mut B) {
        let whole = TICKS_PER_MS * self.dwell_ms;
        match self.random.below(10) {
            0..=2 => self.run_some(bench, whole.max(1)),
            3..=4 => {
                let word = self.alarm_word();
                self.run_calm(bench, whole.saturating_sub(2));
                bench.run(&mut self.random, 3, word);
            }
            _ => self.run_calm(bench, whole.max(1)),
        }
    }
}
