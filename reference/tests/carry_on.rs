//! Paper 02, 6/14: what a carry-on does, and the lines that ask for it.

mod common;
use common::carried::{end, fast, stopped_after, stopped_at_four, stopped_at_once, to_the_end};
use common::{accept, one_tick, replies, send, status_after, ticks};
use reference::Entry;

#[test]
fn one_to_six_digits_are_echoed_in_capitals() {
    for (line, reply) in [
        ("Q0C", "S0C00000"),
        ("Q0c1", "S0C10000"),
        ("Q0C12", "S0C12000"),
        ("Q0C123", "S0C12300"),
        ("Q0Cabcd", "S0CABCD0"),
        ("Q0CFfFfF", "S0CFFFFF"),
        ("Q0C00000B", "S0C00000B"),
        ("Q0C000000", "S0C000000"),
        ("Q4C", ""),
        ("Q4C12345F", ""),
    ] {
        let mut machine = stopped_at_once();
        assert_eq!(send(&mut machine, line), reply, "{line}");
        assert_eq!(machine.status(), 3, "{line}");
    }
    let mut machine = stopped_at_once();
    replies(&mut machine, &[("Q0C000000A", "U0000004"), ("Q0CG", "U0000007"), ("Q0C00000g", "U0000007")]);
    replies(&mut machine, &[("q0C", "U0000008"), ("Q1C", "U0000006"), ("Q06", "S0600008"), ("Q0C", "S0C00000")]);
}

/// The stop after 300 ticks leaves 4, 1 and 2; the one pulse that is open takes the 207 ticks of a move of one.
#[test]
fn five_two_and_minus_three() {
    let mut machine = stopped_at_four();
    accept(&mut machine, &["Q0C"]);
    let (pulses, entry) = to_the_end(&mut machine, 0);
    assert_eq!(pulses, [[1, 1, -1, 0, 0]]);
    assert_eq!(entry, Entry { ticks: 207, cause: 0, travels: [5, 2, -3, 0, 0] });
    assert_eq!((machine.travels(), machine.positions()), ([5, 2, 3, 0, 0], [5, 2, -3, 0, 0]));
    assert_eq!(machine.status(), 0);
}

/// Readings between: travels go on from where they stand, so do positions, also after a position reset.
#[test]
fn travels_and_positions() {
    let mut machine = stopped_at_four();
    replies(&mut machine, &[("Q0B", "S0B00000"), ("Q02", "S0280002"), ("q02", "s0200000"), ("Q0C", "S0C00000")]);
    replies(&mut machine, &[("Q00", "S0000004"), ("Q01", "S0100001"), ("Q02", "S0280002"), ("Q06", "S0600003")]);
    assert_eq!(ticks(&mut machine, 1_000, 0), [1, 1, -1, 0, 0]);
    replies(&mut machine, &[("Q00", "S0000005"), ("Q01", "S0100002"), ("Q02", "S0280003")]);
    replies(&mut machine, &[("q00", "s0000001"), ("q01", "s0100001"), ("q02", "s02FFFFF")]);
}

/// A stop in the first tick of a carry-on, again and again: each end has its one tick and the travels so far.
#[test]
fn carry_ons_stopped_in_their_first_tick() {
    let mut machine = stopped_at_four();
    for _ in 0..5 {
        accept(&mut machine, &["Q0C", "Q09"]);
        assert_eq!(machine.status(), 0xB);
        assert_eq!(end(&mut machine, 0), Entry { ticks: 1, cause: 1, travels: [4, 1, -2, 0, 0] });
        assert_eq!(machine.status(), 8);
    }
    accept(&mut machine, &["Q0C"]);
    assert_eq!(end(&mut machine, 0), Entry { ticks: 207, cause: 0, travels: [5, 2, -3, 0, 0] });
}

/// Speed and phase begin at 0: the first pulse comes in tick 156 as that of a start does, whatever was before.
#[test]
fn speed_and_phase_begin_at_0() {
    for before in [1, 155, 200, 500, 777] {
        let mut machine = fast(&["P00003E8", "P0180190", "Q080"]);
        stopped_after(&mut machine, before);
        accept(&mut machine, &["Q0C"]);
        assert_eq!(ticks(&mut machine, 155, 0), [0; 5]);
        assert_eq!(one_tick(&mut machine, 0).pulses[0], 1);
    }
}

/// Speed and slope are those now set; the slope is set at rest, the speed under way too.
#[test]
fn slope_and_speed_now_set() {
    let mut machine = stopped_at_once();
    accept(&mut machine, &["P0900010", "Q0C"]);
    assert_eq!(ticks(&mut machine, 2_499, 0), [0; 5]);
    assert_eq!(one_tick(&mut machine, 0).pulses, [1, 0, 0, 0, 0]);
    accept(&mut machine, &["P0800001"]);
    assert_eq!(ticks(&mut machine, 3_000, 0), [1, 0, -1, 0, 0]);
    accept(&mut machine, &["P08F4240", "Q09"]);
    end(&mut machine, 0);
    accept(&mut machine, &["P0900FFF", "Q0C"]);
    assert_eq!(end(&mut machine, 0).travels, [5, 2, -3, 0, 0]);
}

/// Bits 3 and 6 are cleared, bit 2 stays; bit 4 tells nothing that was not there.
#[test]
fn bits_3_and_6() {
    let mut machine = fast(&["P0000100", "P0180001", "Q0E02000", "Q080"]);
    assert_eq!(status_after(&mut machine, 200, 0), 3);
    accept(&mut machine, &["Q09"]);
    assert_eq!(status_after(&mut machine, 1, 0x2000), 0x4B);
    end(&mut machine, 0);
    assert_eq!(send(&mut machine, "Q081"), "U000000E");
    assert_eq!(machine.status(), 0x4C);
    accept(&mut machine, &["Q0C"]);
    assert_eq!(machine.status(), 7);
    assert_eq!(end(&mut machine, 0).cause, 0);
    assert_eq!(machine.status(), 4);
}

/// A dwell behind the carried-on end runs as behind any other.
#[test]
fn the_dwell_behind_a_carried_on_end() {
    let mut machine = stopped_at_once();
    accept(&mut machine, &["P0A00001", "Q0C"]);
    assert_eq!(end(&mut machine, 0).cause, 0);
    assert_eq!(status_after(&mut machine, 249, 0), 1);
    assert_eq!(status_after(&mut machine, 1, 0), 0);
}
