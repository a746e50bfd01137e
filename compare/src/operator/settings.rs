//! What an operator sets: inputs, dwell, watch, speed, slope, polarity and outputs.

use super::Operator;
use crate::bench::Bench;
use crate::line;
use reference::command::{FASTEST, HIGHEST_POLARITY, LONGEST_DWELL, ON_SETTING_BITS, STEEPEST};
use reference::machine::{INPUT_WORD_END, TICKS_PER_MS, WATCH_FULL};

impl Operator {
    /// Sets which inputs act while low and which while high; seldom one that acts always.
    pub(super) fn set_inputs<B: Bench>(&mut self, bench: &mut B) {
        let density = self.random.below(4);
        let mask = (0..density).fold(ON_SETTING_BITS, |mask, _| mask & self.random.bits() as u32);
        let side = self.random.bits() as u32;
        let (low, mut high) = (mask & side, mask & !side);
        if self.random.chance(3) {
            high |= 1 << self.random.pick(&[0, 3, 12, 13]);
        }
        if self.order(bench, line::low_on(low)) {
            self.low_on = low;
        }
        if self.order(bench, line::high_on(high)) {
            self.high_on = high;
        }
    }

    fn set_dwell<B: Bench>(&mut self, bench: &mut B) {
        let past_watch = WATCH_FULL / TICKS_PER_MS;
        let long = bench.ticks_left() > 2 * WATCH_FULL;
        let ms = match self.random.below(20) {
            0 => self.random.below(LONGEST_DWELL + 1),
            1..=3 if long => self.random.between(past_watch - 1, past_watch + 9),
            1..=4 => self.random.below(40),
            5..=11 => 0,
            _ => self.random.between(1, 4),
        };
        if self.order(bench, line::dwell(ms)) {
            self.dwell_ms = ms;
        }
    }

    pub(super) fn set_watch<B: Bench>(&mut self, bench: &mut B) {
        let bits = self.random.pick(&[0, 1, 1, 2, 3, 3, 3]);
        if self.order(bench, line::watch(bits)) {
            self.watch = bits;
        }
    }

    pub(super) fn set_speed<B: Bench>(&mut self, bench: &mut B) {
        let setting = match self.random.below(10) {
            0..=4 => FASTEST,
            5 => self.random.spread(200),
            6..=7 => self.random.spread(FASTEST),
            _ => self.random.between(50_000, FASTEST),
        };
        self.order(bench, line::speed(setting));
    }

    /// Slopes that divide a pulse's phase of 50,000,000 make both sides of the braking test equal more often.
    pub(super) fn set_slope<B: Bench>(&mut self, bench: &mut B) {
        let setting = match self.random.below(20) {
            0..=5 => STEEPEST,
            6..=9 => self.random.pick(&[500, 1_000, 1_250, 2_000, 2_500, 3_125, 4_000]),
            10 => self.random.spread(STEEPEST),
            11 => self.random.between(1, 40),
            _ => self.random.between(500, STEEPEST),
        };
        self.order(bench, line::slope(setting));
    }

    pub(super) fn set_something<B: Bench>(&mut self, bench: &mut B) {
        match self.random.below(7) {
            0 | 1 => self.set_inputs(bench),
            2 => self.set_dwell(bench),
            3 => self.set_watch(bench),
            4 => {
                let bits = self.random.below(HIGHEST_POLARITY + 1);
                self.order(bench, line::polarity(bits));
            }
            5 => self.set_outputs(bench),
            _ => self.set_slope(bench),
        }
    }

    pub(super) fn set_outputs<B: Bench>(&mut self, bench: &mut B) {
        let word = self.random.below(INPUT_WORD_END);
        self.order(bench, line::outputs(word));
    }
}
