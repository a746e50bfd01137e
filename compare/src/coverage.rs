//! Counters of what a run has met, and how they are printed.

mod blocks;
mod carried;
mod identified;
mod marks;
mod moves;
mod stations;
mod trials;

pub use blocks::Blocks;
pub use carried::{Carried, Found, Nothing, Since, SINCE};
pub use identified::{Identified, OtherCase};
pub use marks::Marks;
pub use moves::{Cause, Moves};
pub use stations::{End, Positions, Stations};
pub use trials::{Met, Trials};

use crate::counted::{add_each, grouped, listed, Counted};
use std::fmt;

/// The highest number of a line or a tick, and the highest below it.
const LAST_NUMBER: usize = 26;
const LAST_IN_ROW: usize = 17;

/// Counters of one part of a run.
#[derive(Clone, Debug, Default)]
pub struct Coverage {
    pub items: u64,
    pub calls: u64,
    pub lines: u64,
    pub bytes: u64,
    pub reply_bytes: u64,
    pub ticks: u64,
    pub readings: u64,
    pub moves: Moves,
    pub carried: Carried,
    pub stations: Stations,
    pub blocks: Blocks,
    pub identified: Identified,
    pub trials: Trials,
    pub switches: Marks,
    /// Lengths of buffers lent to bytes, and to ticks.
    pub lent: Marks,
    pub lent_to_ticks: Marks,
    pub numbers: [u64; LAST_NUMBER + 1],
}

impl Coverage {
    pub fn number(&mut self, number: u8) {
        self.numbers[number as usize] += 1;
    }

    /// The counters of calls and of what went in and came out.
    fn add_traffic(&mut self, more: &Coverage) {
        self.items += more.items;
        self.calls += more.calls;
        self.lines += more.lines;
        self.bytes += more.bytes;
        self.reply_bytes += more.reply_bytes;
        self.ticks += more.ticks;
        self.readings += more.readings;
    }
}

impl Counted for Coverage {
    fn add(&mut self, more: &Coverage) {
        self.add_traffic(more);
        self.moves.add(&more.moves);
        self.carried.add(&more.carried);
        self.stations.add(&more.stations);
        self.blocks.add(&more.blocks);
        self.identified.add(&more.identified);
        self.trials.add(&more.trials);
        self.switches.join(&more.switches);
        self.lent.join(&more.lent);
        self.lent_to_ticks.join(&more.lent_to_ticks);
        add_each(&mut self.numbers, &more.numbers);
    }
}

impl fmt::Display for Coverage {
    fn fmt(&self, f: &mut fmt::Formatter) -> fmt::Result {
        let g = grouped;
        writeln!(f, "  calls {}, ticks {}, readings {}", g(self.calls), g(self.ticks), g(self.readings))?;
        let bytes = format!("bytes received {}, bytes of replies {}", g(self.bytes), g(self.reply_bytes));
        writeln!(f, "  lines {}, {bytes}", g(self.lines))?;
        let [switches, lent, to_ticks] = [&self.switches, &self.lent, &self.lent_to_ticks].map(Marks::count);
        writeln!(f, "  switches {switches} of 256, lengths of buffers lent to bytes {lent}, to ticks {to_ticks}")?;
        write!(f, "{}{}{}{}{}", self.blocks, self.identified, self.moves, self.carried, self.stations)?;
        let numbers = (1..=LAST_IN_ROW).chain([LAST_NUMBER]).map(|number| (format!("{number}:"), self.numbers[number]));
        writeln!(f, "  numbers: {}", listed(numbers))?;
        write!(f, "{}", self.trials)
    }
}
