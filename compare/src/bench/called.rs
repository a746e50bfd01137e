//! A bench that keeps what is done as a list of calls, with trials between them.

use super::tried::{start_line, Trying};
use super::{Bench, Stand};
use crate::call::{Call, LONGEST_LENT};
use crate::coverage::Coverage;
use crate::random::Random;
use crate::step::Step;
use crate::trial::Asked;
use reference::line::{with_line_end, LINE_END};
use reference::machine::{INPUT_WORD_END, LEAST_REPLY_BUFFER};
use reference::{watch_off_line, Trial};

pub struct Called {
    stand: Stand,
    steps: Vec<Step>,
    trying: Trying,
}

/// One in so many doses that meet the full watch is tried until then; in half of the lists it is on from power-on.
const WATCHED: u32 = 20;

/// The length of a buffer that is too short, often by one byte.
fn short(random: &mut Random) -> usize {
    let least = LEAST_REPLY_BUFFER as u32;
    (if random.chance(30) { least - 1 } else { random.below(least) }) as usize
}

/// The length of a buffer that takes every reply.
fn long(random: &mut Random) -> usize {
    random.between(LEAST_REPLY_BUFFER as u32, LONGEST_LENT as u32) as usize
}

impl Called {
    /// The last ones are the random numbers of its trials.
    pub fn new(switch: u8, ticks: u32, trials: Random) -> Called {
        Called { stand: Stand::new(switch, ticks), steps: Vec::new(), trying: Trying::new(trials, WATCHED) }
    }

    /// The list, which ends with a trial, and what it meets.
    pub fn finish(mut self) -> (Vec<Step>, Coverage) {
        self.try_out();
        (self.steps, self.stand.seen())
    }

    fn call(&mut self, call: Call) {
        self.steps.push(Step::Call(call));
    }

    // Trials.

    /// A trial; at times the very same is then done.
    fn try_out(&mut self) {
        let asked = self.trying.asked(&self.stand);
        self.steps.push(Step::Trial(asked));
        let told = self.stand.trial(asked);
        if self.trying.is_done(&self.stand, asked, told) {
            self.do_tried(asked, told);
        }
    }

    /// The start line, and the ticks if it is accepted.
    fn do_tried(&mut self, asked: Asked, told: Trial) {
        self.stand.observed.done();
        for byte in with_line_end(&start_line(asked.master)) {
            self.give(byte, LEAST_REPLY_BUFFER);
        }
        if told.number == 0 {
            self.ticks(asked.ticks, asked.word);
        }
        self.steps.push(Step::AsTried);
    }

    // Bytes.

    /// One byte with one lent buffer; its number.
    fn give(&mut self, byte: u8, lent: usize) -> u8 {
        self.call(Call::byte(byte, lent));
        let mut buffer = [0; LONGEST_LENT];
        self.stand.byte(byte, &mut buffer[..lent])
    }

    /// A byte that meets a short buffer is mostly given again, and at times lost.
    fn receive(&mut self, random: &mut Random, byte: u8) -> u8 {
        if self.trying.before_byte(&self.stand) {
            self.try_out();
        }
        if random.below(200) == 0 {
            let lent = short(random);
            self.give(byte, lent);
            if random.chance(5) {
                return 2;
            }
        }
        let lent = if random.chance(70) { LEAST_REPLY_BUFFER } else { long(random) };
        self.give(byte, lent)
    }

    /// The host's first line (paper 02, 2/14); whether it is accepted.
    pub fn turn_watch_off(&mut self, random: &mut Random) -> bool {
        watch_off_line().map(|byte| self.receive(random, byte)) == [0; 5]
    }

    // Ticks and readings.

    /// Ticks in one call, which lends the least buffer.
    fn ticks(&mut self, count: u32, word: u32) {
        self.call(Call::ticks(count, word));
        self.stand.ticks(count, word, &mut [0; LEAST_REPLY_BUFFER]);
    }

    /// One tick with one lent buffer, if one is left.
    fn tick(&mut self, word: u32, lent: usize) {
        if self.ticks_left() > 0 {
            self.call(Call::tick(word, lent));
            let mut buffer = [0; LONGEST_LENT];
            self.stand.ticks(1, word, &mut buffer[..lent]);
        }
    }

    /// A tick with a buffer of its own. One that meets a short buffer is mostly given again, and at times lost.
    fn single_tick(&mut self, random: &mut Random, word: u32) {
        if random.chance(30) {
            self.tick(word, short(random));
            if random.chance(5) {
                return;
            }
        }
        self.tick(word, long(random));
    }

    fn readings(&mut self) {
        self.call(Call::READINGS);
        self.stand.readings();
    }

    /// Over-large words, at times with a buffer of any length.
    fn over_large(&mut self, random: &mut Random) {
        let any = random.between(INPUT_WORD_END, u32::MAX);
        let word = random.pick(&[INPUT_WORD_END, u32::MAX, any, any]);
        if random.chance(30) {
            self.tick(word, random.below(LONGEST_LENT as u32 + 1) as usize);
        } else {
            let count = random.spread(20);
            self.run(random, count, word);
        }
    }
}

impl Bench for Called {
    fn stand(&self) -> &Stand {
        &self.stand
    }

    fn stand_mut(&mut self) -> &mut Stand {
        &mut self.stand
    }

    fn send(&mut self, random: &mut Random, line: &[u8]) -> u8 {
        for &byte in line {
            self.receive(random, byte);
        }
        self.receive(random, LINE_END)
    }

    /// At times the last tick has a buffer of its own.
    fn run(&mut self, random: &mut Random, count: u32, word: u32) {
        if self.trying.before_ticks(&self.stand, word) {
            self.try_out();
        }
        let count = count.min(self.ticks_left());
        if count == 0 || random.chance(80) {
            self.ticks(count, word);
            return;
        }
        if count > 1 {
            self.ticks(count - 1, word);
        }
        self.single_tick(random, word);
    }

    /// Readings, over-large words, no ticks at all.
    fn oddity(&mut self, random: &mut Random) {
        match random.below(10) {
            0..=4 => self.readings(),
            5..=8 => self.over_large(random),
            _ => self.ticks(0, random.below(INPUT_WORD_END)),
        }
    }
}
