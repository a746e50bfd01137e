//! The dearest single calls, each with the calls that lead to it.

use super::load::{Calls, LINE_END};
use crate::bits::LIMITS;
use crate::call::{Call, TICKS};

/// Steepest slope and highest speed, the limits of the load, and general outputs.
const STEEP: [&str; 4] = ["P0900FFF", "P08F4240", "Q0E033FF", "W0ABC000"];

/// Moves of one pulse and of two, in which all five pumps pulse with the master.
const ONE_PULSE: [&str; 5] = ["P0000001", "P0180001", "P0200001", "P0380001", "P0400001"];
const TWO_PULSES: [&str; 5] = ["P0000002", "P0180002", "P0200002", "P0380002", "P0400002"];

/// The tick of the one pulse, and that of the first of two.
const ONLY: u32 = 207;
const FIRST: u32 = 156;

/// The ticks of a dwell of one ms before its last one.
const DWELL: u32 = 249;

/// A call after a list of others.
pub struct Single {
    pub name: &'static str,
    pub before: Calls,
    pub call: Call,
}

impl Single {
    /// The list with the call and the one without; of a tick the second has a call of no ticks.
    pub fn lists(&self) -> [Calls; 2] {
        let with = self.before.clone().call(self.call);
        if self.call.kind == TICKS {
            return [with, self.before.clone().call(Call { count: 0, ..self.call })];
        }
        [with, self.before.clone()]
    }
}

fn tick(name: &'static str, before: Calls, word: u32) -> Single {
    Single { name, before, call: Call::ticks(1, word) }
}

/// The 0D of a line.
fn end_of(name: &'static str, before: Calls, line: &str) -> Single {
    Single { name, before: before.characters(line), call: LINE_END }
}

/// A move and some of its ticks, with a dwell of one ms to come.
fn started(distances: &[&str], ticks: u32) -> Calls {
    Calls::default().line("P0A00001").lines(&STEEP).lines(distances).line("Q080").ticks(ticks, 0)
}

/// A move that is stopped and ends before its first pulse, and a start stored in its dwell, which has one tick left.
fn dwelling() -> Calls {
    started(&ONE_PULSE, 1).line("Q09").ticks(1, 0).line("Q088").ticks(DWELL, 0)
}

/// The calls of the table. The start turned away by 17 is one whose last axis alone would leave the range.
pub fn singles() -> [Single; 8] {
    [
        tick("a tick at rest", Calls::load().ticks(FIRST, 0), 0),
        tick("a stored start's tick", dwelling(), 0),
        tick("an ending tick, five pulses", started(&ONE_PULSE, ONLY - 1), 0),
        tick("a limit met, five pulses", started(&TWO_PULSES, FIRST - 1), LIMITS),
        end_of("0D of q08", Calls::load(), "q08"),
        end_of("0D of a start, Q080", Calls::load(), "Q080"),
        end_of("0D of P08F4241, number 10", Calls::load(), "P08F4241"),
        end_of("0D of a start, number 17", started(&ONE_PULSE, ONLY).lines(&["P017FFFF", "P047FFFF"]), "Q081"),
    ]
}

#[cfg(test)]
mod tests {
    use super::super::load::LENT;
    use super::*;
    use crate::bits::{MOVING, STOPPED};
    use crate::replay;
    use reference::Machine;

    /// The reference before and after a call of the table, and what it answers.
    fn done(at: usize) -> (Machine, Machine, Vec<i8>, usize, u8) {
        let single = &singles()[at];
        let before: Machine = replay::run(0, single.before.bytes()).machine;
        let mut after = before.clone();
        if single.call.kind == TICKS {
            let answer = after.tick(single.call.value, &mut [0; LENT]);
            return (before, after, answer.pulses.to_vec(), answer.len, answer.number);
        }
        let answer = after.byte(single.call.received(), &mut [0; LENT]);
        (before, after, Vec::new(), answer.len, answer.number)
    }

    #[test]
    fn the_ticks_are_those_of_their_names() {
        let (before, after, ..) = done(0);
        assert_eq!([before.status(), after.status()], [0, 0]);
        let (before, after, _, _, number) = done(1);
        assert_eq!([before.status(), after.status(), number as u32], [1 | STOPPED, 1 | MOVING, 0]);
        let (before, after, pulses, ..) = done(2);
        assert_eq!([before.status() & MOVING, after.status() & MOVING], [MOVING, 0]);
        assert_eq!(pulses, [1, -1, 1, -1, 1]);
        let (before, after, pulses, ..) = done(3);
        assert_eq!([before.status() & STOPPED, after.status() & (STOPPED | MOVING)], [0, STOPPED | MOVING]);
        assert_eq!(pulses, [1, -1, 1, -1, 1]);
        assert_eq!([0, 1, 2, 3].map(|at| done(at).3), [0; 4]);
    }

    #[test]
    fn the_line_ends_are_those_of_their_names() {
        let (.., length, number) = done(4);
        assert_eq!((length, number), (108, 0));
        let (_, after, _, _, number) = done(5);
        assert_eq!((after.status() & MOVING, number), (MOVING, 0));
        assert_eq!(done(6).4, 10);
        assert_eq!(done(7).4, 17);
    }
}
