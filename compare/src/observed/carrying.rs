//! The latest move as carry-ons find it (paper 02, 6/14): how it ended, and what has come since.

use crate::bits::in_dwell;
use crate::coverage::{Nothing, Since, SINCE};
use reference::command::Command;
use reference::journal::{Entry, COMPLETE};

/// Distance and direction of each axis, true for minus.
pub type Directed = [(u32, bool); 5];

#[derive(Clone, Copy, Debug)]
pub struct Carrying {
    /// Why there is nothing to carry on; none where a stop has ended the latest move.
    pub nothing: Option<Nothing>,
    /// What has come since it ended.
    pub since: [bool; SINCE],
    /// How often it was carried on.
    pub times: u64,
    /// The next move.
    pub distances: Directed,
}

/// What an accepted line is to a stopped move, but for distance lines.
fn since_line(command: Command, status: u32) -> Option<Since> {
    match command {
        Command::Speed(_) | Command::Slope(_) | Command::Dwell(_) | Command::Watch(_) | Command::Polarity(_) => {
            Some(Since::Setting)
        }
        Command::LowOn(_) | Command::HighOn(_) | Command::Outputs(_) => Some(Since::Setting),
        Command::ResetPositions => Some(Since::Reset),
        Command::Stop => Some(Since::Order9),
        Command::StartAfterDwell { .. } if in_dwell(status) => Some(Since::Stored),
        _ => None,
    }
}

/// The same of one that was turned away.
fn since_refused(line: &[u8]) -> Since {
    match line {
        [b'P', _, b'0'..=b'4', ..] => Since::RefusedDistance,
        [b'Q', _, b'C' | b'c', ..] => Since::RefusedCarryOn,
        _ => Since::Refused,
    }
}

impl Carrying {
    pub fn power_on() -> Carrying {
        Carrying { nothing: Some(Nothing::NoMove), since: [false; SINCE], times: 0, distances: [(0, false); 5] }
    }

    fn mark(&mut self, since: Since) {
        self.since[since as usize] = true;
    }

    /// A start took effect.
    pub fn begin(&mut self) {
        self.times = 0;
    }

    pub fn refused(&mut self, line: &[u8]) {
        self.mark(since_refused(line));
    }

    pub fn tried(&mut self) {
        self.mark(Since::Trial);
    }

    /// A tick has a number: that of a stored start which failed, unless the tick itself is turned away.
    pub fn tick_number(&mut self, number: u8) {
        if number > 3 {
            self.mark(Since::Failed);
        }
    }

    pub fn end(&mut self, entry: &Entry, stop_begun: bool) {
        self.since = [false; SINCE];
        self.nothing = match (entry.cause, stop_begun) {
            (COMPLETE, false) => Some(Nothing::Whole),
            (COMPLETE, true) => Some(Nothing::WholeInStop),
            _ => None,
        };
    }

    /// A distance line was accepted, after which a stopped move is not to be carried on.
    fn distance(&mut self, axis: usize, set: (u32, bool)) {
        let same = std::mem::replace(&mut self.distances[axis], set) == set;
        self.nothing = match self.nothing {
            None | Some(Nothing::SameDistance) if same => Some(Nothing::SameDistance),
            None | Some(Nothing::SameDistance) => Some(Nothing::OtherDistance),
            nothing => nothing,
        };
    }

    pub fn accepted(&mut self, command: Command, status: u32) {
        if let Command::Distance { axis, minus, pulses } = command {
            self.distance(axis as usize, (pulses, minus));
        } else if let Some(since) = since_line(command, status) {
            self.mark(since);
        }
    }
}
