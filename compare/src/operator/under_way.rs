//! What an operator does while a move runs, and how it stops one.

use super::Operator;
use crate::bench::Bench;
use crate::line;
use reference::command::FASTEST;

impl Operator {
    pub(super) fn under_way<B: Bench>(&mut self, bench: &mut B) {
        self.patience = self.patience.saturating_sub(1);
        match self.random.below(100) {
            0..=5 => self.set_speed(bench),
            6..=12 => self.read(bench),
            13..=17 => {
                let order = self.any_order();
                self.order(bench, order);
            }
            18..=20 => self.mistake(bench),
            21..=22 => {
                self.order(bench, line::reset_positions());
            }
            23 => self.set_outputs(bench),
            24..=28 => bench.oddity(&mut self.random),
            29..=31 => self.watch_under_way(bench),
            32..=43 if !self.leave_whole => self.stop(bench),
            44 => self.settle(bench),
            45..=47 => self.settle_beside(bench),
            48..=49 => self.two_cases(bench),
            50 => self.settle_in_two_cases(bench),
            51 => self.station_under_way(bench),
            _ => {}
        }
        if self.patience == 0 {
            self.lose_patience(bench);
        }
        self.run_some(bench, self.usual_run);
    }

    /// A stop by order, by an input, or by a setting that makes an input act.
    pub(super) fn stop<B: Bench>(&mut self, bench: &mut B) {
        match self.random.below(10) {
            0..=2 => {
                self.order(bench, line::stop());
            }
            3..=4 => self.set_inputs(bench),
            _ => {
                let word = self.alarm_word();
                let count = self.random.spread(200);
                bench.run(&mut self.random, count, word);
            }
        }
    }

    /// A slow move meets a full watch.
    fn watch_under_way<B: Bench>(&mut self, bench: &mut B) {
        if self.watch & 1 == 0 || !self.time_for_silence(bench) {
            return;
        }
        let setting = self.random.spread(60);
        self.order(bench, line::speed(setting));
        self.silence(bench);
    }

    /// A move that takes too long is hurried or stopped.
    fn lose_patience<B: Bench>(&mut self, bench: &mut B) {
        let order = if self.random.chance(50) { line::stop() } else { line::speed(FASTEST) };
        self.order(bench, order);
        self.patience = 20;
        self.leave_whole = false;
    }
}
