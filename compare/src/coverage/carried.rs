//! Counters of carry-ons (paper 02, 6/14): their lines, what they met, and how the moves ended that they carried on.

use crate::counted::{add_each, grouped, listed};
use std::fmt;

/// The numbers that may turn a carry-on away, in the order in which they are met. 17 cannot come.
const NUMBERS: [usize; 6] = [11, 26, 12, 13, 16, 17];
const LAST_NUMBER: usize = 26;

/// Why there is nothing to carry on, in the order of `NOTHING_NAMES`.
#[derive(Clone, Copy, Debug, PartialEq, Eq)]
pub enum Nothing {
    NoMove,
    Whole,
    WholeInStop,
    SameDistance,
    OtherDistance,
}

const NOTHING_NAMES: [&str; 5] = [
    "before any move",
    "after a whole end",
    "after one with a stop begun",
    "after a distance line with the distance as it was",
    "after one with another",
];

/// What a carry-on that takes effect may find, in the order of `FOUND_NAMES`.
pub type Found = [bool; FOUND];

const FOUND: usize = 7;

const FOUND_NAMES: [&str; FOUND] = [
    "no pulse sent yet",
    "a share between two pulses",
    "a dwell",
    "a stored start, which is dropped",
    "a stop by order, limit or watch",
    "one by the sensor",
    "one by emergency alone",
];

/// What may come between the end of a move and a carry-on, in the order of `SINCE_NAMES`.
#[derive(Clone, Copy, Debug)]
pub enum Since {
    Setting,
    Reset,
    Order9,
    Refused,
    RefusedDistance,
    RefusedCarryOn,
    Stored,
    Failed,
    Trial,
}

pub const SINCE: usize = 9;

const SINCE_NAMES: [&str; SINCE] = [
    "settings",
    "a position reset",
    "order 9",
    "a line turned away",
    "a distance line turned away",
    "a carry-on turned away",
    "a stored start",
    "one that failed",
    "a trial",
];

#[derive(Clone, Debug, Default)]
pub struct Carried {
    /// Lines that carry on, whatever they get; those that are silent or have an identification.
    pub lines: u64,
    pub silent: u64,
    pub identified: u64,
    numbers: [u64; LAST_NUMBER + 1],
    nothing: [u64; 5],
    /// Those turned away by 26 while emergency is held.
    nothing_and_held: u64,
    found: [u64; FOUND],
    /// Those that took effect with nothing since the end, and with each thing that may come.
    at_once: u64,
    since: [u64; SINCE],
    /// Moves that were carried on, and twice or more; the most carry-ons of one move.
    moves: u64,
    moves_again: u64,
    most: u64,
    /// Entries of moves that had been carried on, by their causes and whether a stop had begun.
    pub whole: u64,
    pub whole_in_stop: u64,
    pub stopped: u64,
}

impl Carried {
    pub fn number(&mut self, number: u8) {
        self.numbers[number as usize] += 1;
    }

    /// One turned away by 26.
    pub fn nothing(&mut self, why: Nothing, held: bool) {
        self.nothing[why as usize] += 1;
        self.nothing_and_held += held as u64;
    }

    /// One that took effect, the so-manieth of its move.
    pub fn effect(&mut self, found: Found, since: [bool; SINCE], time: u64) {
        add_each(&mut self.found, &found.map(u64::from));
        add_each(&mut self.since, &since.map(u64::from));
        self.at_once += (since == [false; SINCE]) as u64;
        self.moves += (time == 1) as u64;
        self.moves_again += (time == 2) as u64;
        self.most = self.most.max(time);
    }

    pub fn add(&mut self, more: &Carried) {
        self.lines += more.lines;
        self.silent += more.silent;
        self.identified += more.identified;
        add_each(&mut self.numbers, &more.numbers);
        add_each(&mut self.nothing, &more.nothing);
        self.nothing_and_held += more.nothing_and_held;
        add_each(&mut self.found, &more.found);
        self.at_once += more.at_once;
        add_each(&mut self.since, &more.since);
        self.moves += more.moves;
        self.moves_again += more.moves_again;
        self.most = self.most.max(more.most);
        self.whole += more.whole;
        self.whole_in_stop += more.whole_in_stop;
        self.stopped += more.stopped;
    }
}

impl fmt::Display for Carried {
    fn fmt(&self, f: &mut fmt::Formatter) -> fmt::Result {
        let g = grouped;
        let numbers = listed(NUMBERS.into_iter().map(|number| (format!("{number}:"), self.numbers[number])));
        let around = format!("silent {}, with an identification {}", g(self.silent), g(self.identified));
        write!(f, "  carry-on lines {}, of these {around}", g(self.lines))?;
        writeln!(f, "; took effect {}, turned away by {numbers}", g(self.numbers[0]))?;
        let nothing = listed(NOTHING_NAMES.iter().zip(self.nothing));
        writeln!(f, "  nothing to carry on: {nothing}; of all with emergency held {}", g(self.nothing_and_held))?;
        writeln!(f, "  carry-ons that found: {}", listed(FOUND_NAMES.iter().zip(self.found)))?;
        let since = listed(SINCE_NAMES.iter().zip(self.since));
        writeln!(f, "  since the move had ended: nothing {}, {since}", g(self.at_once))?;
        let again = format!("of these {} twice or more, the most times {}", g(self.moves_again), g(self.most));
        write!(f, "  moves carried on {}, {again}; their entries of cause 0", g(self.moves))?;
        let whole = g(self.whole + self.whole_in_stop);
        writeln!(f, " {whole}, of these {} with a stop begun, of cause 1 {}", g(self.whole_in_stop), g(self.stopped))
    }
}
