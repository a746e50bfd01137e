//! Counters of moves: how they began, what stopped them, how they ended.

use crate::counted::{add_each, grouped, listed};
use reference::journal::{Entry, COMPLETE};
use std::fmt;

/// Causes of a stop in the order of `CAUSE_NAMES`.
#[derive(Clone, Copy)]
pub enum Cause {
    Order,
    Limit,
    /// Set by a line.
    Watch,
    /// As power-on set it.
    PowerOnWatch,
    Emergency,
    Sensor,
}

const CAUSE_NAMES: [&str; 6] = ["order", "limit", "watch", "watch of power-on", "emergency", "sensor"];

#[derive(Clone, Debug, Default)]
pub struct Moves {
    pub starts: u64,
    pub stored_starts: u64,
    pub carry_ons: u64,
    pub pulses: u64,
    /// Entries of cause 0 with no stop begun.
    whole: u64,
    /// Entries of cause 0 with a stop begun.
    whole_in_stop: u64,
    /// Entries of cause 1.
    stopped: u64,
    causes: [u64; 6],
    /// The largest sum of a remainder and a distance in a move of cause 0.
    largest_sum: u32,
}

fn common_divisor(a: u32, b: u32) -> u32 {
    if b == 0 {
        a
    } else {
        common_divisor(b, a % b)
    }
}

/// The largest sum of a remainder and a distance in a whole move (paper 02, 4/14): the remainders of an axis are the
/// multiples, below the master's distance, of the greatest number that divides both distances.
fn largest_sum(distances: [u32; 5]) -> u32 {
    let master = distances.into_iter().fold(0, u32::max);
    distances.into_iter().map(|distance| master - common_divisor(distance, master) + distance).fold(0, u32::max)
}

impl Moves {
    pub fn cause(&mut self, cause: Cause) {
        self.causes[cause as usize] += 1;
    }

    /// A move that ended, by its entry and by whether a stop had begun.
    pub fn end(&mut self, entry: &Entry, stop_begun: bool) {
        match (entry.cause, stop_begun) {
            (COMPLETE, false) => self.whole += 1,
            (COMPLETE, true) => self.whole_in_stop += 1,
            _ => self.stopped += 1,
        }
        if entry.cause == COMPLETE {
            self.largest_sum = self.largest_sum.max(largest_sum(entry.travels.map(i32::unsigned_abs)));
        }
    }

    pub fn add(&mut self, more: &Moves) {
        self.starts += more.starts;
        self.stored_starts += more.stored_starts;
        self.carry_ons += more.carry_ons;
        self.pulses += more.pulses;
        self.whole += more.whole;
        self.whole_in_stop += more.whole_in_stop;
        self.stopped += more.stopped;
        add_each(&mut self.causes, &more.causes);
        self.largest_sum = self.largest_sum.max(more.largest_sum);
    }
}

impl fmt::Display for Moves {
    fn fmt(&self, f: &mut fmt::Formatter) -> fmt::Result {
        let g = grouped;
        let stored = format!("of these {} stored ones in their tick", g(self.stored_starts));
        writeln!(f, "  starts that took effect {}, {stored}; master pulses {}", g(self.starts), g(self.pulses))?;
        let complete = self.whole + self.whole_in_stop;
        let in_stop = format!("of these {} with a stop begun", g(self.whole_in_stop));
        write!(f, "  moves ended, entries of cause 0 {}, {in_stop}, of cause 1 {}", g(complete), g(self.stopped))?;
        writeln!(f, "; cut off {}", g(self.starts + self.carry_ons - complete - self.stopped))?;
        writeln!(f, "  largest sum of a remainder and a distance in those of cause 0 {}", g(self.largest_sum as u64))?;
        let causes = CAUSE_NAMES.iter().zip(self.causes);
        writeln!(f, "  stop causes that met a move: {}", listed(causes))
    }
}

#[cfg(test)]
mod tests {
    use super::*;

    #[test]
    fn the_largest_sum_is_met_one_short_of_the_longest_master() {
        assert_eq!(largest_sum([524_287, 524_286, 0, 1, 524_287]), 1_048_572);
        assert_eq!(largest_sum([0, 6, 4, 0, 0]), 8);
        assert_eq!(largest_sum([5; 5]), 5);
    }
}
