//! Paper 02, 5/14: a trial equals a plain start and so many ticks on a copy, and alters nothing.

mod common;
use common::sequence::{drawn_line, Sequence};
use common::{accept, in_dwell, line, on, one_tick, under_way};
use reference::{trial, Machine, Trial};

/// The start and the ticks done by hand on a copy; the end by the entry that its tick answers, the positions by the
/// pulses. The controller has no half-received line.
fn by_hand(machine: &Machine, master: u32, word: u32, ticks: u32) -> Trial {
    let mut copy = machine.clone();
    let number = line(&mut copy, format!("Q08{master}").as_bytes()).1;
    if number != 0 {
        return Trial { number, ..Trial::default() };
    }
    let mut shown = Trial { positions: machine.positions().map(i64::from), ..Trial::default() };
    for tick in 1..=ticks {
        let answer = one_tick(&mut copy, word);
        if answer.entry.is_some() {
            assert_eq!(shown.end, 0);
            shown.end = tick;
        }
        for axis in 0..5 {
            shown.positions[axis] += i64::from(answer.pulses[axis]);
            shown.travels[axis] += u32::from(answer.pulses[axis] != 0);
        }
    }
    shown
}

/// A trial that is equal to the start and ticks by hand, with the controller as it was.
fn tried(machine: &Machine, master: u32, word: u32, ticks: u32) -> Trial {
    let before = machine.clone();
    let shown = trial(machine, master, word, ticks);
    assert_eq!(*machine, before);
    assert_eq!(shown, by_hand(machine, master, word, ticks), "{master} {word:06X} {ticks}");
    shown
}

/// A fast controller with a distance of one pulse on axis 0.
fn one_pulse() -> Machine {
    let mut machine = on();
    accept(&mut machine, &["P0000001", "P0900FFF", "P08F4240"]);
    machine
}

/// What a trial shows that has its end in this tick, with one pulse of axis 0 or none.
fn ends(end: u32, pulses: u32) -> Trial {
    Trial { number: 0, end, travels: [pulses, 0, 0, 0, 0], positions: [i64::from(pulses), 0, 0, 0, 0] }
}

#[test]
fn no_tick_one_and_those_about_the_end() {
    let machine = one_pulse();
    for ticks in [0, 1, 155, 206] {
        assert_eq!(tried(&machine, 0, 0, ticks), ends(0, 0));
    }
    for ticks in [207, 208, 3_000, 1_000_000] {
        assert_eq!(tried(&machine, 0, 0xFFFFFF, ticks), ends(207, 1));
    }
}

/// A count of 0 shows travels 0, not those of the move before, and the positions as they are.
#[test]
fn no_tick_behind_a_move() {
    let machine = in_dwell();
    assert_eq!(machine.travels()[0], 3);
    let shown = tried(&machine, 0, 0, 0);
    assert_eq!(shown, Trial { positions: [3, 0, 0, 0, 0], ..Trial::default() });
}

/// The start is an accepted line: it zeroes the watch count, which power-on's watch would fill in tick 10 or 18.
#[test]
fn the_start_zeroes_the_watch_count() {
    let mut machine = one_pulse();
    for _ in 0..999_990 {
        one_tick(&mut machine, 0);
    }
    assert_eq!(tried(&machine, 0, 0, 1_000), ends(207, 1));
    (0..10).for_each(|_| _ = one_tick(&mut machine, 0));
    assert_eq!(tried(&machine, 0, 0, 1_000), ends(207, 1));
}

/// Tick 1,000,000 of a trial has a full count: the watch stops a dose there, with no pulse.
#[test]
fn the_watch_acts_in_the_last_tick() {
    let mut machine = one_pulse();
    accept(&mut machine, &["P0800001"]);
    assert_eq!(tried(&machine, 0, 0, 999_999), ends(0, 0));
    assert_eq!(tried(&machine, 0, 0, 1_000_000), ends(1_000_000, 0));
    accept(&mut machine, &["P0B0"]);
    assert_eq!(tried(&machine, 0, 0, 1_000_000), ends(1_000_000, 1));
}

/// A pending W line keeps its block, which comes in the 2,500th tick of the controller itself.
#[test]
fn the_original_keeps_its_block() {
    let mut machine = one_pulse();
    accept(&mut machine, &["W0ABCDEF7"]);
    (0..2_499).for_each(|_| assert_eq!(one_tick(&mut machine, 5).len, 0));
    assert_eq!(tried(&machine, 0, 6, 5_000), ends(207, 1));
    assert_eq!(one_tick(&mut machine, 5).len, 10);
}

/// The start reads the last word before, the ticks the held one.
#[test]
fn the_held_word_and_the_one_before() {
    let mut machine = one_pulse();
    for (setting, word, number) in [("Q0E02000", 0x2000, 13), ("Q0E00001", 1, 16), ("Q0E01000", 0x1000, 12)] {
        accept(&mut machine, &[setting]);
        assert_eq!(tried(&machine, 0, word, 1_000), ends(1, 0), "{setting}");
        assert_eq!(tried(&machine, 0, 0, 1_000), ends(207, 1), "{setting}");
        one_tick(&mut machine, word);
        for held in [0, word] {
            assert_eq!(tried(&machine, 0, held, 1_000), Trial { number, ..Trial::default() }, "{setting}");
        }
        one_tick(&mut machine, 0);
        accept(&mut machine, &["Q0B"]);
    }
}

/// In a dwell, with a stored start and after a stop: the plain start ends the dwell and drops the stored one, so that
/// nothing follows its end.
#[test]
fn dwells_stored_starts_and_stops() {
    let mut machine = in_dwell();
    assert_eq!((tried(&machine, 0, 0, 5_000).end, tried(&machine, 0, 0, 5_000).travels[0]), (362, 3));
    accept(&mut machine, &["Q088"]);
    assert_eq!((tried(&machine, 0, 0, 5_000).end, tried(&machine, 0, 0, 5_000).travels[0]), (362, 3));
    let mut machine = under_way(0);
    assert_eq!(tried(&machine, 0, 0, 5_000).number, 11);
    accept(&mut machine, &["Q09"]);
    assert_eq!(tried(&machine, 0, 0, 5_000).number, 11);
    common::until_rest(&mut machine, 0);
    let shown = tried(&machine, 0, 0, 7_000);
    assert_eq!((shown.end, shown.travels), (6_890, [1_000, 400, 0, 0, 0]));
    assert_eq!(shown.positions[0], 1_000 + i64::from(machine.positions()[0]));
}

/// Machines that drawn lists reach, of every switch: at rest, under way, stopping, in dwells, with blocks to come.
#[test]
fn drawn_controllers() {
    let (mut numbers, mut ended) = ([0; 18], [0; 2]);
    for seed in 1..=120u64 {
        let mut sequence = Sequence(seed.wrapping_mul(0x9E37_79B9_7F4A_7C15));
        let mut machine = Machine::power_on(seed as u8 % 16).0;
        for _ in 0..90 {
            line(&mut machine, &drawn_line(&mut sequence, [40, 0, 0, 0, 0]));
            let word = (sequence.draw() | sequence.draw()) as u32 & 0xFFFFFF;
            (0..sequence.below(400)).for_each(|_| _ = one_tick(&mut machine, word));
            let shown = tried(&machine, sequence.below(5) as u32, 0xFFFFFF & !word, sequence.below(2_000) as u32);
            numbers[shown.number as usize] += 1;
            ended[usize::from(shown.end > 0)] += u32::from(shown.number == 0);
        }
    }
    assert!((11..=16).all(|number| numbers[number] > 0), "{numbers:?}");
    assert!(ended.iter().all(|&count| count > 100), "{ended:?}");
}
