//! Counters of trials: what they met, and what they were answered.

use super::Marks;
use crate::counted::{add_each, grouped, listed};
use reference::Trial;
use std::fmt;

/// What a trial may meet, in the order of `MET_NAMES`.
pub type Met = [bool; 7];

const MET_NAMES: [&str; 7] = [
    "half-received line",
    "move",
    "dwell",
    "stored start",
    "held emergency at rest",
    "rest after a stop",
    "W line's block to come",
];

/// The numbers that turn a trial away.
const NUMBERS: [usize; 10] = [3, 10, 11, 12, 13, 14, 15, 16, 17, 25];
const LAST_NUMBER: usize = 25;

#[derive(Clone, Debug, Default)]
pub struct Trials {
    pub trials: u64,
    /// The ticks of those that were not turned away.
    ticks: u64,
    ended: u64,
    /// Of those that ended, the ones that a stop kept short of the master's distance.
    pub short: u64,
    not_ended: u64,
    /// Those whose move met the full watch, in their last tick.
    pub watched: u64,
    /// Followed by the very start line and as many ticks.
    pub done: u64,
    met: [u64; 7],
    pub switches: Marks,
    numbers: [u64; LAST_NUMBER + 1],
}

impl Trials {
    /// A trial of so many ticks, and what it met.
    pub fn count(&mut self, answer: &Trial, ticks: u32, met: Met) {
        self.trials += 1;
        self.numbers[answer.number as usize] += 1;
        add_each(&mut self.met, &met.map(u64::from));
        if answer.number != 0 {
            return;
        }
        self.ticks += ticks as u64;
        match answer.end {
            0 => self.not_ended += 1,
            _ => self.ended += 1,
        }
    }

    pub fn add(&mut self, more: &Trials) {
        self.trials += more.trials;
        self.ticks += more.ticks;
        self.ended += more.ended;
        self.short += more.short;
        self.not_ended += more.not_ended;
        self.watched += more.watched;
        self.done += more.done;
        add_each(&mut self.met, &more.met);
        self.switches.join(&more.switches);
        add_each(&mut self.numbers, &more.numbers);
    }
}

/// Nothing is printed where there was none.
impl fmt::Display for Trials {
    fn fmt(&self, f: &mut fmt::Formatter) -> fmt::Result {
        let g = grouped;
        if self.trials == 0 {
            return Ok(());
        }
        let ended = format!("ended {}, of these {} short by a stop", g(self.ended), g(self.short));
        write!(f, "  trials {}, their ticks {}; {ended}", g(self.trials), g(self.ticks))?;
        let numbers = listed(NUMBERS.into_iter().map(|number| (format!("{number}:"), self.numbers[number])));
        writeln!(f, ", did not end {}; numbers of trials: {numbers}", g(self.not_ended))?;
        let met = listed(MET_NAMES.iter().zip(self.met));
        writeln!(f, "  trials that met: {met}, the full watch {}", g(self.watched))?;
        writeln!(f, "  trials then done for real {}, switches with trials {}", g(self.done), self.switches.count())
    }
}
