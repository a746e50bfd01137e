//! W lines and the ticks until their blocks.

use super::Operator;
use crate::bench::Bench;
use crate::bits::{BUSY, MOVING};
use crate::line;
use reference::machine::{INPUT_WORD_END, LEAST_REPLY_BUFFER};
use reference::Machine;

/// The block of a W line comes in this tick after it (paper 02, 3/14).
pub(super) const SETTLED: u32 = 2_500;

/// How many ticks an operator looks ahead.
const AHEAD: u32 = 20_000;

/// The tick, counted from 1, in which a move or a dwell ends, or a stored start takes effect or fails, under one word.
fn next_change(machine: &Machine, word: u32) -> Option<u32> {
    let mut copy = machine.clone();
    let status = copy.status() & (BUSY | MOVING);
    (1..=AHEAD).find(|_| {
        let answer = copy.tick(word, &mut [0; LEAST_REPLY_BUFFER]);
        answer.entry.is_some() || answer.number != 0 || copy.status() & (BUSY | MOVING) != status
    })
}

impl Operator {
    /// A W line in one of its forms, some of them silent, many with an identification.
    fn ask_inputs<B: Bench>(&mut self, bench: &mut B) {
        match self.random.below(10) {
            0..=3 => {
                self.order(bench, line::inputs());
            }
            4..=5 => self.set_outputs(bench),
            _ => {
                let outputs = line::outputs(self.random.below(INPUT_WORD_END));
                let line = line::identified(&mut self.random, &outputs);
                bench.send(&mut self.random, &line);
            }
        }
    }

    /// Between a W line and its block: another that takes its place, one that is turned away, or anything else.
    fn meanwhile<B: Bench>(&mut self, bench: &mut B) {
        match self.random.below(20) {
            0..=1 => self.ask_inputs(bench),
            2..=4 => {
                let line = line::refused_w(&mut self.random);
                bench.send(&mut self.random, &line);
            }
            5 => self.mistake(bench),
            6 => self.read(bench),
            7..=10 => bench.oddity(&mut self.random),
            _ => {}
        }
    }

    /// A W line and the ticks until its block or until just before, the last ones under words of their own.
    pub(super) fn settle<B: Bench>(&mut self, bench: &mut B) {
        self.ask_inputs(bench);
        let early = self.random.below(SETTLED);
        self.run_calm(bench, early);
        self.meanwhile(bench);
        let short = self.random.pick(&[0, 1, 1, 2, 3]);
        self.run_calm(bench, (SETTLED - early).saturating_sub(short));
        for _ in 0..self.random.below(6) {
            self.run_calm(bench, 1);
        }
    }

    /// A W line just so early that its block comes in the tick that ends the move or the dwell, at times with an input
    /// that acts in that tick.
    pub(super) fn settle_beside<B: Bench>(&mut self, bench: &mut B) {
        let word = self.calm_word();
        let change = next_change(bench.machine(), word).filter(|&ticks| ticks <= bench.ticks_left());
        let Some(early) = change.and_then(|ticks| ticks.checked_sub(SETTLED)) else { return };
        bench.run(&mut self.random, early, word);
        self.ask_inputs(bench);
        bench.run(&mut self.random, SETTLED - 1, word);
        let last = if self.random.chance(30) { self.alarm_word() } else { word };
        bench.run(&mut self.random, 1, last);
    }

    /// The same of a stored start, which mostly fails: its master's distance becomes 0 while it waits.
    pub(super) fn settle_beside_start<B: Bench>(&mut self, bench: &mut B) {
        self.store_start(bench);
        if self.random.chance(70) {
            self.order(bench, line::distance(self.master, false, 0));
        }
        self.settle_beside(bench);
    }

    /// A dwell that is long enough for a W line, after a move that is stopped; a start waits in it.
    pub(super) fn settle_in_dwell<B: Bench>(&mut self, bench: &mut B) {
        let usual = self.dwell_ms;
        self.dwell_ms = self.random.between(10, 14);
        self.order(bench, line::dwell(self.dwell_ms));
        self.start_move(bench);
        self.run_some(bench, 300);
        self.order(bench, line::stop());
        while bench.machine().status() & MOVING != 0 && bench.ticks_left() > 0 {
            self.run_calm(bench, 20);
        }
        self.settle_beside_start(bench);
        if self.order(bench, line::dwell(usual)) {
            self.dwell_ms = usual;
        }
    }
}
