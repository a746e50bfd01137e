//! Paper 02, 2/14: the watch is 1 from power-on, and what turns it off.

mod common;
use common::refused::refused;
use common::{accept, line, number, on, one_tick, status_after, ticks, until_rest};
use reference::{front, watch_off_line, Machine};

const FULL: u32 = 1_000_000;

/// A controller from power-on with a slow, long move begun, by these lines first; the count is 0.
fn long_move(switch: u8, lines: &[&str]) -> Machine {
    let mut machine = Machine::power_on(switch).0;
    accept(&mut machine, lines);
    accept(&mut machine, &["P007FFFF", "P0800004", "W0FFFFFF", "Q080"]);
    machine
}

#[test]
fn the_watch_is_1_for_every_switch() {
    for switch in 0..=255 {
        let fresh = Machine::power_on(switch).0;
        for (watch, same) in [("P0B0", false), ("P0B1", true), ("P0B2", false), ("P0B3", false)] {
            let mut machine = fresh.clone();
            accept(&mut machine, &[watch]);
            assert_eq!(machine == fresh, same, "{switch} {watch}");
        }
    }
}

#[test]
fn a_silent_line_stops_the_move_in_the_millionth_tick() {
    for switch in [0, 4, 8, 12, 13] {
        let mut machine = long_move(switch, &[]);
        assert_eq!(status_after(&mut machine, FULL - 1, 0), 3);
        assert_eq!(status_after(&mut machine, 1, 0), 0xB);
        until_rest(&mut machine, 0);
        assert_eq!(machine.status(), 8);
    }
}

#[test]
fn each_line_that_turns_it_off_gives_the_same_controller() {
    let mut off = on();
    accept(&mut off, &["P0B0"]);
    for text in ["P4B0", "P0B00000", "P4B00000", "P0B0ABCD", "P0B000007", "P0b0"] {
        let mut machine = on();
        accept(&mut machine, &[text]);
        assert_eq!(machine, off, "{text}");
    }
    assert_eq!(line(&mut off, b"P4B0"), (String::new(), 0));
    assert_eq!(line(&mut off, b"P0B0"), ("U0000000".to_string(), 0));
    let mut running = long_move(0, &["P0B0"]);
    assert_eq!(status_after(&mut running, FULL + 1_000, 0), 3);
}

#[test]
fn the_host_gives_five_bytes_that_turn_it_off() {
    assert_eq!(watch_off_line(), [0x50, 0x30, 0x42, 0x30, 0x0D]);
    let (mut sent, mut typed, mut buf) = (on(), on(), [0; 120]);
    accept(&mut typed, &["P0B0"]);
    let answers = watch_off_line().map(|byte| sent.byte(byte, &mut buf));
    assert!(answers[..4].iter().all(|answer| (answer.len, answer.number) == (0, 0)));
    assert_eq!((front(&buf, answers[4].len), answers[4].number), (&b"U0000000\r"[..], 0));
    assert_eq!(sent, typed);
}

/// After 1,000,001 ticks the phase is 16 + 32 + 48 + 50 × 999,998, 4 short of a pulse: the first comes in the next.
#[test]
fn at_the_least_speed_the_power_on_watch_comes_before_the_first_pulse() {
    for (lines, pulses, status) in [(&["P0B0"][..], 1, 3), (&[], 0, 8)] {
        let mut machine = on();
        accept(&mut machine, lines);
        accept(&mut machine, &["P0000002", "P0800001", "Q080"]);
        assert_eq!(ticks(&mut machine, FULL, 0), [0; 5]);
        assert_eq!(ticks(&mut machine, 1, 0), [0; 5]);
        assert_eq!(ticks(&mut machine, 1, 0), [pulses, 0, 0, 0, 0]);
        assert_eq!(ticks(&mut machine, 8, 0), [0; 5]);
        assert_eq!(machine.status(), status);
    }
}

#[test]
fn under_way_it_stays() {
    let mut machine = long_move(0, &[]);
    ticks(&mut machine, FULL - 2, 0);
    for text in ["P0B0", "P0B00000", "P4B0"] {
        refused(&mut machine, text.as_bytes(), 11);
    }
    assert_eq!(status_after(&mut machine, FULL - 1, 0), 3);
    assert_eq!(status_after(&mut machine, 1, 0), 0xB);
}

/// The status in the tick that follows, after a line that comes with the count one short of full.
fn status_after_line(text: &[u8]) -> u32 {
    let mut machine = long_move(0, &[]);
    ticks(&mut machine, FULL - 1, 0);
    line(&mut machine, text);
    status_after(&mut machine, 1, 0)
}

#[test]
fn lines_turned_away_by_4_to_9_do_not_postpone_the_stop() {
    for text in ["", "P000000011", "X0", "Q1", "Q0G", "Q05", "P0B", "X4", "P4B"] {
        assert_eq!(status_after_line(text.as_bytes()), 0xB, "{text}");
    }
    for text in ["P0B4", "P4B4", "P0B0", "Q080", "Q480", "Q46", "W0"] {
        assert_eq!(status_after_line(text.as_bytes()), 3, "{text}");
    }
}

#[test]
fn ticks_turned_away_do_not_count() {
    let mut machine = long_move(0, &[]);
    ticks(&mut machine, FULL - 2, 0);
    for _ in 0..100 {
        assert_eq!(one_tick(&mut machine, 0x0100_0000).number, 3);
    }
    assert_eq!(status_after(&mut machine, 1, 0), 3);
    assert_eq!(status_after(&mut machine, 1, 0), 0xB);
}

/// Bit 1 is clear; at rest a full count does nothing, and the next line zeroes it.
#[test]
fn general_outputs_stay_and_rest_has_no_stop() {
    let mut machine = on();
    accept(&mut machine, &["W0FFFFFF"]);
    for _ in 0..FULL + 10 {
        assert_eq!(one_tick(&mut machine, 0).words, [0xFFFC00; 2]);
    }
    assert_eq!(machine.status(), 0);
    accept(&mut machine, &["P0000002", "Q080"]);
    assert_eq!(status_after(&mut machine, 100, 0), 3);
    assert_eq!(number(&mut machine, "P0B0"), 11);
}
