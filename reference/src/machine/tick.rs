//! Stops: one tick, in the tick order; a tick that is turned away by 2 or 3.

use super::{Machine, TickAnswer, INPUT_WORD_END, LEAST_REPLY_BUFFER};
use crate::output::output_words;

/// Turned away, 2 and 3: nothing altered, pulses and words 0, this number in the failed start's place.
fn turned_away(number: u8) -> TickAnswer {
    TickAnswer { pulses: [0; 5], words: [0, 0], number, entry: None, len: 0 }
}

/// Turned away, 2 and 3, in checking order; paper 02, 3/14: 2 holds for the lent buffer of a tick.
fn check_tick(word: u32, lent: usize) -> Result<(), u8> {
    if lent < LEAST_REPLY_BUFFER {
        return Err(2);
    }
    if word >= INPUT_WORD_END {
        return Err(3);
    }
    Ok(())
}

impl Machine {
    /// Stops: count the dwell down and, when it becomes 0, try a waiting start; the number of a failed one, or 0.
    fn count_dwell_down(&mut self) -> u8 {
        if !self.dwell_runs() {
            return 0;
        }
        self.dwell -= 1;
        if self.dwell_runs() {
            return 0;
        }
        match self.waiting.take() {
            Some(master) => self.try_start(master).err().unwrap_or(0),
            None => 0,
        }
    }

    /// Stops: one tick, in the tick order; a block of a W line is the front part of the lent buffer.
    pub fn tick(&mut self, word: u32, buf: &mut [u8]) -> TickAnswer {
        if let Err(number) = check_tick(word, buf.len()) {
            return turned_away(number);
        }
        self.inputs.word = word;
        self.raise_watch_count();
        self.hold_emergency();
        self.clear_outputs_by_watch();
        let number = self.count_dwell_down();
        self.begin_stop_by_cause();
        let (pulses, entry) = self.ramp_and_pulses();
        let words = output_words(self.switch, pulses, self.latest.minus, self.polarity, self.general_outputs);
        let block = self.settled_block();
        buf[..block.len()].copy_from_slice(&block);
        TickAnswer { pulses, words, number, entry, len: block.len() }
    }
}
