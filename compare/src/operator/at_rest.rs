//! What an operator does while nothing runs.

use super::Operator;
use crate::bench::Bench;
use crate::bits::{BLOCKED, BY_SENSOR, HELD, MOVING, WRONG_MASTER};
use crate::line;
use reference::machine::{TICKS_PER_MS, WATCH_FULL};

impl Operator {
    /// Frees a held emergency, first at times while its input still acts, and clears what keeps starts away.
    pub(super) fn put_right<B: Bench>(&mut self, bench: &mut B, status: u32) {
        if status & HELD != 0 && self.random.chance(20) {
            self.order(bench, line::reset_positions());
            let order = if self.random.chance(50) { line::start(0) } else { line::carry_on() };
            self.order(bench, order);
        }
        if self.low_on & self.high_on != 0 || self.random.chance(20) {
            self.set_inputs(bench);
        }
        self.run_calm(bench, 1);
        if status & HELD != 0 {
            self.order(bench, line::reset_positions());
        }
        if status & WRONG_MASTER != 0 && self.random.chance(50) {
            self.order(bench, line::clear_wrong_master());
        }
    }

    pub(super) fn at_rest<B: Bench>(&mut self, bench: &mut B) {
        if self.likes_to_go_on(bench) {
            self.go_on(bench);
            return;
        }
        let status = bench.machine().status();
        if status & (WRONG_MASTER | BLOCKED | HELD | BY_SENSOR) != 0 && self.random.chance(80) {
            self.put_right(bench, status);
        }
        match self.random.below(100) {
            0..=24 => self.set_something(bench),
            25..=34 => self.read(bench),
            35..=42 => self.mistake(bench),
            43..=45 => {
                self.order(bench, line::reset_positions());
            }
            46..=49 => self.alarm_at_rest(bench),
            50..=51 => {
                self.order(bench, line::stop());
            }
            52..=55 => bench.oddity(&mut self.random),
            56 => self.start_too_far(bench),
            57..=58 if self.time_for_silence(bench) => self.watched(bench),
            59 if self.time_for_silence(bench) => self.stored_past_watch(bench),
            60..=61 => self.settle(bench),
            62 => self.settle_in_dwell(bench),
            63 if self.time_for_longest(bench) => self.longest_move(bench),
            64..=69 => self.stutter(bench),
            70..=71 => {
                self.carry_on(bench);
            }
            72..=74 => self.two_cases(bench),
            75..=76 => self.settle_in_two_cases(bench),
            77..=79 => self.station_move(bench),
            _ => self.start_move(bench),
        }
        self.run_some(bench, 20);
    }

    /// Inputs act while nothing runs, and a start or a carry-on meets them.
    fn alarm_at_rest<B: Bench>(&mut self, bench: &mut B) {
        if self.random.chance(25) {
            self.carry_on_in_alarm(bench);
            return;
        }
        let word = self.alarm_word();
        let count = self.random.between(1, 5);
        bench.run(&mut self.random, count, word);
        self.order(bench, line::start(self.master));
    }

    /// A silence with outputs that the watch may clear, mostly while a slow move runs.
    fn watched<B: Bench>(&mut self, bench: &mut B) {
        self.set_watch(bench);
        self.set_outputs(bench);
        if self.random.chance(70) {
            self.start_move(bench);
            let setting = self.random.spread(20);
            self.order(bench, line::speed(setting));
        }
        self.silence(bench);
    }

    /// A start that waits in silence until the watch is full, so that its move meets the watch in its first tick; at
    /// times a carry-on breaks the silence, with nothing to carry on.
    fn stored_past_watch<B: Bench>(&mut self, bench: &mut B) {
        self.set_watch(bench);
        self.dwell_ms = WATCH_FULL / TICKS_PER_MS + self.random.below(60);
        self.order(bench, line::dwell(self.dwell_ms));
        self.start_move(bench);
        let count = self.random.spread(self.usual_run);
        self.run_calm(bench, count);
        self.order(bench, line::stop());
        while bench.machine().status() & MOVING != 0 && bench.ticks_left() > 0 {
            self.run_calm(bench, count);
        }
        self.store_start(bench);
        let whole = TICKS_PER_MS * self.dwell_ms;
        let early = if self.random.chance(40) { self.random.below(whole) } else { 0 };
        if early > 0 {
            self.run_calm(bench, early);
            self.order(bench, line::carry_on());
        }
        self.run_calm(bench, whole - early);
        self.order(bench, line::status());
    }

    /// No line until the watch is full or all but full, at times with one line on the way, which may zero the count.
    pub(super) fn silence<B: Bench>(&mut self, bench: &mut B) {
        if !self.time_for_silence(bench) {
            return;
        }
        let early = self.random.below(WATCH_FULL);
        self.run_calm(bench, early);
        if self.random.chance(40) {
            self.disturb(bench);
        }
        if self.random.chance(40) {
            bench.oddity(&mut self.random);
        }
        let short = self.random.pick(&[0, 0, 0, 1, 2, 3]);
        self.run_calm(bench, (WATCH_FULL - early).saturating_sub(short));
        for _ in 0..self.random.below(6) {
            self.run_calm(bench, 1);
        }
        self.order(bench, line::status());
    }

    pub(super) fn time_for_silence<B: Bench>(&self, bench: &B) -> bool {
        bench.ticks_left() > WATCH_FULL + 100
    }

    /// One line of any kind, right or not, at rest often a carry-on.
    fn disturb<B: Bench>(&mut self, bench: &mut B) {
        if bench.machine().status() & MOVING == 0 && self.random.chance(50) {
            self.order(bench, line::carry_on());
        } else if self.random.chance(60) {
            self.mistake(bench);
        } else {
            let order = self.any_order();
            self.order(bench, order);
        }
    }
}
