//! An operator who works at a bench with a purpose: most lines are right, most starts take effect, and stops of every
//! cause come at random pulses.

use crate::bench::Bench;
use crate::bits::{BUSY, EMERGENCY, LIMITS, MOVING, SENSOR};
use crate::line::{self, Order};
use crate::random::Random;
use reference::command::{FASTEST, HIGHEST_POLARITY, LONGEST, ON_SETTING_BITS, STEEPEST};
use reference::machine::INPUT_WORD_END;

mod at_rest;
mod carry_on;
mod cases;
mod in_dwell;
mod settings;
mod settle;
mod starts;
mod station;
mod stutter;
mod under_way;

const AXES: usize = 5;

/// The watch that power-on sets, axes, and the one that the host's first line sets (paper 02, 2/14).
pub const POWER_ON_WATCH: u32 = 1;
pub const WATCH_OFF: u32 = 0;

fn any_axis(random: &mut Random) -> usize {
    random.below(AXES as u32) as usize
}

/// How long a piece of work this operator likes, and what it believes the settings to be.
pub struct Operator {
    random: Random,
    low_on: u32,
    high_on: u32,
    watch: u32,
    dwell_ms: u32,
    /// The usual longest distance of a move and the usual longest run of ticks.
    usual_distance: u32,
    usual_run: u32,
    /// The axis that the last distances were set for.
    master: usize,
    /// Whether the present move is left to its end, and after how many steps patience ends.
    leave_whole: bool,
    patience: u32,
}

impl Operator {
    /// Operators differ: from small lively moves to moves of any length. The watch is the one that it finds set.
    pub fn new(mut random: Random, watch: u32) -> Operator {
        let (usual_distance, usual_run) = random.pick(&[(12, 300), (300, 1_000), (2_000, 3_000), (LONGEST, 60_000)]);
        Operator {
            random,
            low_on: 0,
            high_on: 0,
            watch,
            dwell_ms: 0,
            usual_distance,
            usual_run,
            master: 0,
            leave_whole: true,
            patience: 0,
        }
    }

    /// Works until no ticks are left; hands the random sequence back.
    pub fn work<B: Bench>(mut self, bench: &mut B) -> Random {
        while bench.ticks_left() > 0 {
            let status = bench.machine().status();
            if status & MOVING != 0 {
                self.under_way(bench);
            } else if status & BUSY != 0 {
                self.in_dwell(bench);
            } else {
                self.at_rest(bench);
            }
        }
        self.random
    }

    // Lines.

    /// Sends an order in one of its forms; true if it is accepted.
    fn order<B: Bench>(&mut self, bench: &mut B, order: Order) -> bool {
        let line = line::spelled(&mut self.random, &order);
        bench.send(&mut self.random, &line) == 0
    }

    fn read<B: Bench>(&mut self, bench: &mut B) {
        for _ in 0..self.random.between(1, 3) {
            let order = line::reading(&mut self.random);
            self.order(bench, order);
        }
    }

    /// A line that is turned away by its value, or one that went wrong on the way.
    fn mistake<B: Bench>(&mut self, bench: &mut B) {
        if self.random.chance(35) {
            let order = line::out_of_range(&mut self.random);
            self.order(bench, order);
            return;
        }
        let order = self.any_order();
        let line = line::spelled(&mut self.random, &order);
        let line = line::damaged(&mut self.random, line);
        bench.send(&mut self.random, &line);
    }

    /// Any order, sent without regard to what runs.
    fn any_order(&mut self) -> Order {
        let random = &mut self.random;
        match random.below(15) {
            0..=2 => line::distance(any_axis(random), random.chance(50), random.spread(LONGEST)),
            3 => line::speed(random.spread(FASTEST)),
            4 => line::slope(random.spread(STEEPEST)),
            5 => line::dwell(random.below(20)),
            6 => line::watch(random.below(4)),
            7 => line::polarity(random.below(HIGHEST_POLARITY + 1)),
            8 => line::start(any_axis(random)),
            9 => line::start_after_dwell(any_axis(random)),
            10 => line::clear_wrong_master(),
            11 => line::outputs(random.below(INPUT_WORD_END)),
            12 => line::carry_on(),
            _ => line::reading(random),
        }
    }

    // Input words.

    /// An input word under which nothing acts, as far as the settings allow.
    fn calm_word(&mut self) -> u32 {
        let free = if self.random.chance(50) { 0 } else { self.random.below(INPUT_WORD_END) };
        (free | self.low_on) & !self.high_on
    }

    fn run_calm<B: Bench>(&mut self, bench: &mut B, count: u32) {
        let word = self.calm_word();
        bench.run(&mut self.random, count, word);
    }

    /// Runs 1 to `most` ticks under a calm word.
    fn run_some<B: Bench>(&mut self, bench: &mut B, most: u32) {
        let count = self.random.spread(most);
        self.run_calm(bench, count);
    }

    /// An emergency, a sensor, a limit, or several of them.
    fn some_inputs(&mut self) -> u32 {
        let limit = 1 << self.random.below(10);
        let several = self.random.pick(&[LIMITS, ON_SETTING_BITS, EMERGENCY | SENSOR | limit]);
        self.random.pick(&[EMERGENCY, SENSOR, SENSOR, limit, limit, several])
    }

    /// A calm word with some inputs acting, where a setting has them.
    fn alarm_word(&mut self) -> u32 {
        let inputs = self.some_inputs();
        let word = self.calm_word();
        (word & !(self.low_on & inputs)) | (self.high_on & inputs)
    }
}
