//! Where an operator works: a bench that takes lines and ticks and keeps them, as text or as a list of calls.

mod called;
mod previewed;
mod tried;
mod typed;

pub use called::Called;
pub use previewed::Previewed;
pub use typed::Typed;

use crate::coverage::{Coverage, Stations};
use crate::observed::{Directed, Observed, Received};
use crate::random::Random;
use crate::trial::Asked;
use reference::{Machine, Trial};

/// What every kind of bench stands on: the reference, and the ticks that may still be run.
pub struct Stand {
    observed: Observed,
    ticks_left: u32,
}

impl Stand {
    fn new(switch: u8, ticks: u32) -> Stand {
        Stand { observed: Observed::power_on(switch), ticks_left: ticks }
    }

    /// As the bench programs begin.
    fn opened(ticks: u32) -> Stand {
        Stand { observed: Observed::opened(), ticks_left: ticks }
    }

    /// One received byte with its lent buffer; its number.
    fn byte(&mut self, byte: u8, lent: &mut [u8]) -> u8 {
        self.observed.byte(byte, lent).number
    }

    /// Ticks with one input word, all lent one buffer; there may be more of them than are left.
    fn ticks(&mut self, count: u32, word: u32, lent: &mut [u8]) {
        self.observed.ticks(count, word, lent);
        self.ticks_left = self.ticks_left.saturating_sub(count);
    }

    fn readings(&mut self) {
        self.observed.readings();
    }

    /// A trial, whose ticks are none of those that may be run.
    fn trial(&mut self, asked: Asked) -> Trial {
        self.observed.trial(asked)
    }

    fn seen(self) -> Coverage {
        self.observed.into_seen()
    }
}

/// A bench with the reference behind it, so that the operator sees what its work has led to.
pub trait Bench {
    /// What it stands on.
    fn stand(&self) -> &Stand;
    fn stand_mut(&mut self) -> &mut Stand;

    /// Sends a line with its end; the number that it got.
    fn send(&mut self, random: &mut Random, line: &[u8]) -> u8;

    /// Runs ticks with one input word, no more than are left.
    fn run(&mut self, random: &mut Random, count: u32, word: u32);

    /// Does something that no other kind of bench has.
    fn oddity(&mut self, random: &mut Random);

    fn machine(&self) -> &Machine {
        self.stand().observed.machine()
    }

    /// The last whole line.
    fn last_received(&self) -> &Received {
        self.stand().observed.last_received()
    }

    /// Starts and carry-ons that took effect.
    fn moves_begun(&self) -> u64 {
        self.stand().observed.moves_begun()
    }

    /// The counters of a station's commands.
    fn stations(&mut self) -> &mut Stations {
        self.stand_mut().observed.stations()
    }

    /// Whether a stopped move is left to be carried on.
    fn is_open(&self) -> bool {
        self.stand().observed.is_open()
    }

    /// Distances and directions of the next move.
    fn directed(&self) -> Directed {
        self.stand().observed.directed()
    }

    /// Ticks that may still be run.
    fn ticks_left(&self) -> u32 {
        self.stand().ticks_left
    }
}
