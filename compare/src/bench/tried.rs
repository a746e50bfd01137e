//! When a bench makes a trial, and which one.

use super::Stand;
use crate::bits::MOVING;
use crate::random::Random;
use crate::trial::{chosen, Asked, LAST_MASTER};
use reference::machine::INPUT_WORD_END;
use reference::Trial;

/// One byte, one line of a text and one run of ticks in so many has a trial before it; of the bytes most are within a
/// line. While a move runs, which turns each trial away, so many times fewer.
const BYTES: u32 = 150;
const LINES: u32 = 12;
const RUNS: u32 = 2;
const UNDER_WAY: u32 = 30;

/// The random numbers of trials, the input word that is usual, and in how many doses that meet the full watch one is
/// tried until then.
pub struct Trying {
    pub random: Random,
    word: u32,
    watched: u32,
}

impl Trying {
    pub fn new(random: Random, watched: u32) -> Trying {
        Trying { random, word: 0, watched }
    }

    fn is_due(&mut self, stand: &Stand, one_in: u32) -> bool {
        let moving = stand.observed.machine().status() & MOVING != 0;
        self.random.below(if moving { UNDER_WAY * one_in } else { one_in }) == 0
    }

    pub fn before_byte(&mut self, stand: &Stand) -> bool {
        self.is_due(stand, BYTES)
    }

    pub fn before_line(&mut self, stand: &Stand) -> bool {
        self.is_due(stand, LINES)
    }

    /// Whether a trial comes before ticks with a word, which is the usual one then.
    pub fn before_ticks(&mut self, stand: &Stand, word: u32) -> bool {
        if word < INPUT_WORD_END {
            self.word = word;
        }
        self.is_due(stand, RUNS)
    }

    pub fn asked(&mut self, stand: &Stand) -> Asked {
        chosen(&mut self.random, &stand.observed, self.word, self.watched)
    }

    /// Whether the very start line and as many ticks follow: at times, where no line has begun and the ticks leave
    /// enough for other work.
    pub fn is_done(&mut self, stand: &Stand, asked: Asked, told: Trial) -> bool {
        let fits = asked.master <= LAST_MASTER && asked.word < INPUT_WORD_END && asked.ticks <= stand.ticks_left / 4;
        let often = if told.number == 0 { 15 } else { 5 };
        fits && stand.observed.between_lines() && self.random.chance(often)
    }
}

/// The plain start line of a master, without its end.
pub fn start_line(master: u32) -> Vec<u8> {
    format!("Q08{master}").into_bytes()
}
