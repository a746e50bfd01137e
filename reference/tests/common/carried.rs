//! Paper 02, 6/14: moves that are stopped, and what their carry-ons lead to.

use super::{accept, on, one_tick};
use reference::{Entry, Machine};

/// A fast controller with these lines accepted.
pub fn fast(lines: &[&str]) -> Machine {
    let mut machine = on();
    accept(&mut machine, &["P08F4240", "P0900FFF"]);
    accept(&mut machine, lines);
    machine
}

/// Ticks to the end of the move; the pulses of those ticks in which the master sends one, and the entry of the end.
pub fn to_the_end(machine: &mut Machine, word: u32) -> (Vec<[i8; 5]>, Entry) {
    let mut pulses = Vec::new();
    for _ in 0..50_000_000 {
        let answer = one_tick(machine, word);
        pulses.extend((answer.pulses != [0; 5]).then_some(answer.pulses));
        if let Some(entry) = answer.entry {
            return (pulses, entry);
        }
    }
    panic!("no end");
}

/// The entry of the end.
pub fn end(machine: &mut Machine, word: u32) -> Entry {
    to_the_end(machine, word).1
}

/// So many ticks, then order 9 and the ticks to the end; all pulses and the entry.
pub fn stopped_after(machine: &mut Machine, ticks: u32) -> (Vec<[i8; 5]>, Entry) {
    let mut all: Vec<[i8; 5]> = Vec::new();
    for _ in 0..ticks {
        let answer = one_tick(machine, 0);
        assert_eq!(answer.entry, None);
        all.extend((answer.pulses != [0; 5]).then_some(answer.pulses));
    }
    accept(machine, &["Q09"]);
    let (pulses, entry) = to_the_end(machine, 0);
    all.extend(pulses);
    (all, entry)
}

/// A fast move of five pulses, stopped before its first tick: its distances are all open.
pub fn stopped_at_once() -> Machine {
    let mut machine = fast(&["P0000005", "P0100002", "P0280003", "Q080", "Q09"]);
    assert_eq!(end(&mut machine, 0), Entry { ticks: 1, cause: 1, travels: [0; 5] });
    machine
}

/// The same move, stopped with travels 4, 1 and 2.
pub fn stopped_at_four() -> Machine {
    let mut machine = fast(&["P0000005", "P0100002", "P0280003", "Q080"]);
    let (_, entry) = stopped_after(&mut machine, 300);
    assert_eq!(entry, Entry { ticks: 494, cause: 1, travels: [4, 1, -2, 0, 0] });
    machine
}
