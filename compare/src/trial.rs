//! A trial (paper 02, 5/14): what is asked, the reference's answer, and how one is chosen and spelled.

mod choice;
mod spelling;

pub use choice::{chosen, LAST_MASTER};
pub use spelling::screen_line;

use reference::{Machine, Trial};
use std::fmt;

/// A plain start with this master, and so many ticks with this input word.
#[derive(Clone, Copy, Debug, PartialEq, Eq)]
pub struct Asked {
    pub master: u32,
    pub word: u32,
    pub ticks: u32,
}

impl Asked {
    /// What the reference says that it would leave.
    pub fn tried(&self, machine: &Machine) -> Trial {
        reference::trial(machine, self.master, self.word, self.ticks)
    }
}

impl fmt::Display for Asked {
    fn fmt(&self, f: &mut fmt::Formatter) -> fmt::Result {
        write!(f, "a trial with master {}, {} ticks with word {:06X}", self.master, self.ticks, self.word)
    }
}
