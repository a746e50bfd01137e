//! Carry-ons on the reference machine, counted with what they found.

use super::{Directed, Observed};
use crate::bits::{in_dwell, BY_SENSOR, HELD, MOVING, STOPPED};
use crate::coverage::Found;
use reference::command::Command;
use reference::journal::{Entry, COMPLETE};
use reference::line::{identification, is_silent, read_line};

/// Whether the share of some axis is more than its travel: the master is the longest axis, and its travel too.
fn is_between_pulses(distances: Directed, travels: [u32; 5]) -> bool {
    let distances = distances.map(|(distance, _)| distance as u64);
    let (whole, sent) = (distances.into_iter().fold(1, u64::max), travels.into_iter().fold(0, u32::max) as u64);
    distances.iter().any(|distance| !(sent * distance).is_multiple_of(whole))
}

impl Observed {
    /// Whether a stop has ended the latest move and nothing since has kept it from being carried on.
    pub fn is_open(&self) -> bool {
        self.status & MOVING == 0 && self.carrying.nothing.is_none()
    }

    /// The next move.
    pub fn directed(&self) -> Directed {
        self.carrying.distances
    }

    /// What a carry-on finds, in the order of their names.
    fn found(&self) -> Found {
        let by_bits = self.status & (STOPPED | BY_SENSOR);
        [
            self.machine.travels() == [0; 5],
            is_between_pulses(self.carrying.distances, self.machine.travels()),
            in_dwell(self.status),
            self.followed.waiting,
            by_bits & STOPPED != 0,
            by_bits & BY_SENSOR != 0,
            by_bits == 0,
        ]
    }

    /// A line that carries on, and its number.
    fn carry_on(&mut self, line: &[u8], number: u8) {
        let (found, held) = (self.found(), self.status & HELD != 0);
        let (seen, carrying) = (&mut self.seen.carried, &mut self.carrying);
        seen.lines += 1;
        seen.silent += is_silent(line) as u64;
        seen.identified += identification(line).is_some() as u64;
        seen.number(number);
        match (number, carrying.nothing) {
            (0, _) => {
                carrying.times += 1;
                seen.effect(found, carrying.since, carrying.times);
            }
            (26, Some(why)) => seen.nothing(why, held),
            _ => {}
        }
    }

    /// A whole line before anything else follows it; whether it has carried a move on.
    pub(super) fn carry_line(&mut self, line: &[u8], number: u8) -> bool {
        let command = read_line(line).ok().map(|read| read.command);
        if command == Some(Command::CarryOn) {
            self.carry_on(line, number);
        }
        match command {
            Some(command) if number == 0 => self.carrying.accepted(command, self.status),
            _ => self.carrying.refused(line),
        }
        command == Some(Command::CarryOn) && number == 0
    }

    /// A tick that ends the move.
    pub(super) fn end_carried(&mut self, entry: &Entry) {
        self.carrying.end(entry, self.stop_begun);
        if self.carrying.times == 0 {
            return;
        }
        match (entry.cause, self.stop_begun) {
            (COMPLETE, false) => self.seen.carried.whole += 1,
            (COMPLETE, true) => self.seen.carried.whole_in_stop += 1,
            _ => self.seen.carried.stopped += 1,
        }
    }
}

#[cfg(test)]
mod tests {
    use super::*;
    use reference::line::with_line_end;

    fn send(observed: &mut Observed, line: &str) {
        with_line_end(line.as_bytes()).for_each(|byte| {
            observed.byte(byte, &mut [0; 120]);
        });
    }

    #[test]
    fn carry_ons_are_counted_with_what_they_found() {
        let mut observed = Observed::power_on(0);
        let settings = ["P000001E", "P0180014", "P08F4240", "P0900FFF", "P0A00001"].map(|line| (0, line));
        let moves = [(0, "Q080"), (0, "Q4C"), (0, "Q09"), (1, "Q0C12345F"), (230, "Q09"), (300, "P0012"), (0, "Q088")];
        let ends = [(0, "Q0C"), (2_000, "Q0C")];
        for (ticks, line) in [(0, "Q0C")].into_iter().chain(settings).chain(moves).chain(ends) {
            observed.ticks(ticks, 0, &mut [0; 120]);
            send(&mut observed, line);
        }
        let told = observed.into_seen().carried.to_string();
        for part in [
            "carry-on lines 5, of these silent 1, with an identification 1; took effect 2, turned away by 11: 1, 26: 2",
            "before any move 1, after a whole end 1,",
            "no pulse sent yet 1, a share between two pulses 1, a dwell 2, a stored start, which is dropped 1,",
            "nothing 1, settings 0, a position reset 0, order 9 0, a line turned away 0, a distance line turned away 1",
            "moves carried on 1, of these 1 twice or more, the most times 2; their entries of cause 0 1,",
        ] {
            assert!(told.contains(part), "{told}");
        }
    }
}
