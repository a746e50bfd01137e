//! Watch.

mod common;
use common::{accept, line, number, on, one_tick, status_after, ticks};
use reference::Machine;

const FULL: u32 = 1_000_000;

/// Every watch, after the one with neither of its bits: each bit is set or cleared, whatever power-on has.
const WATCHES: [[&str; 2]; 4] = [["P0B3", "P0B0"], ["P0B2", "P0B1"], ["P0B1", "P0B2"], ["P0B0", "P0B3"]];

/// General outputs all 1, watch as given, watch count 0.
fn with_outputs(watch: &[&str]) -> Machine {
    let mut machine = on();
    accept(&mut machine, &["W0FFFFFF"]);
    accept(&mut machine, watch);
    machine
}

fn outputs_on(machine: &mut Machine) -> bool {
    one_tick(&mut machine.clone(), 0).words[1] & 0xFFFC00 == 0xFFFC00
}

#[test]
fn watch_bit_1_clears_the_general_outputs() {
    for (watch, cleared) in WATCHES.iter().zip([false, false, true, true]) {
        let mut machine = with_outputs(watch);
        for _ in 0..FULL - 1 {
            assert_eq!(one_tick(&mut machine, 0).words, [0xFFFC00; 2]);
        }
        let word = if cleared { 0 } else { 0xFFFC00 };
        assert_eq!(one_tick(&mut machine, 0).words, [word; 2]);
        assert_eq!(one_tick(&mut machine, 0).words, [word; 2]);
        accept(&mut machine, &["W0ABCDEF"]);
        assert_eq!(one_tick(&mut machine, 0).words, [0xABCC00; 2]);
    }
}

#[test]
fn watch_bit_0_alone_stops_moves() {
    for (watch, stopped) in WATCHES.iter().zip([false, true, false, true]) {
        let mut machine = with_outputs(watch);
        accept(&mut machine, &["P007FFFF", "P0800001", "Q080"]);
        assert_eq!(status_after(&mut machine, FULL - 1, 0), 3);
        assert_eq!(status_after(&mut machine, 1, 0) & 8 != 0, stopped);
    }
}

/// After the line, with the count one short of full before it, are the outputs kept in the next tick?
fn kept_after(text: &[u8]) -> bool {
    let mut machine = with_outputs(&["P0B2"]);
    accept(&mut machine, &["P0000001", "P0100002"]);
    ticks(&mut machine, FULL - 1, 0);
    assert!(!outputs_on(&mut machine));
    line(&mut machine, text);
    outputs_on(&mut machine)
}

#[test]
fn which_lines_zero_the_count() {
    for text in ["Q06", "Q46", "W0", "q48", "P0800001", "Q09", "q08000001"] {
        assert!(kept_after(text.as_bytes()), "{text}");
    }
    for text in ["P0800000", "P4800000", "Q08F", "Q080", "Q480"] {
        assert!(kept_after(text.as_bytes()), "{text}");
    }
    for text in ["", "P000000012", "X0", "P1", "Q0G", "Q0", "Q05", "Q08", "W01", "P0800", "P4800"] {
        assert!(!kept_after(text.as_bytes()), "{text}");
    }
}

#[test]
fn a_refused_byte_and_a_half_line_do_not_zero_the_count() {
    let mut machine = with_outputs(&["P0B2"]);
    ticks(&mut machine, FULL - 1, 0);
    for byte in *b"Q06" {
        machine.byte(byte, &mut [0; 120]);
    }
    assert_eq!(machine.byte(0x0D, &mut [0; 119]).number, 2);
    assert!(!outputs_on(&mut machine));
    machine.byte(0x0D, &mut [0; 120]);
    assert!(outputs_on(&mut machine));
}

#[test]
fn a_refused_tick_does_not_raise_the_count() {
    let mut machine = with_outputs(&["P0B2"]);
    ticks(&mut machine, FULL - 2, 0);
    for _ in 0..10 {
        assert_eq!(one_tick(&mut machine, u32::MAX).number, 3);
    }
    assert_eq!(one_tick(&mut machine, 0).words, [0xFFFC00; 2]);
    assert_eq!(one_tick(&mut machine, 0).words, [0; 2]);
}

#[test]
fn number_11_zeroes_the_count() {
    let mut machine = on();
    accept(&mut machine, &["P007FFFF", "P0800001", "P0B1", "Q080"]);
    ticks(&mut machine, FULL - 1, 0);
    assert_eq!(number(&mut machine, "P0000001"), 11);
    assert_eq!(status_after(&mut machine, FULL - 1, 0), 3);
    assert_eq!(status_after(&mut machine, 1, 0) & 8, 8);
}
