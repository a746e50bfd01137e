//! Paper 02, 3/14: the block of a W line comes in the answer of the 2,500th accepted tick after it.

mod common;
use common::blocks::{block, no_block};
use common::refused::refused_each;
use common::{accept, number, on, one_tick, send, ticks};
use reference::Machine;

#[test]
fn the_block_comes_in_the_2500th_tick_with_its_inputs() {
    let mut machine = on();
    assert_eq!(send(&mut machine, "W0ABCDEF1"), "");
    no_block(&mut machine, 2_499, 5);
    assert_eq!(block(&mut machine, 0x123456), "R01234561\n");
    no_block(&mut machine, 7_501, 0x123456);
}

#[test]
fn a_query_has_its_block_too() {
    let mut machine = on();
    assert_eq!(send(&mut machine, "W0"), "");
    no_block(&mut machine, 2_499, 0xFFFFFF);
    assert_eq!(block(&mut machine, 0), "R0000000\n");
    no_block(&mut machine, 2_501, 0xFFFFFF);
}

#[test]
fn every_switch_has_its_digit() {
    for switch in 0..=255 {
        let (mut machine, number) = Machine::power_on(switch);
        accept(&mut machine, &["W0"]);
        ticks(&mut machine, 2_499, 0);
        let digit = if number == 1 { "0".to_string() } else { format!("{switch:X}") };
        assert_eq!(block(&mut machine, 0xABCDEF), format!("R{digit}ABCDEF\n"));
    }
}

#[test]
fn every_identification_comes_back() {
    let mut machine = on();
    for id in "0123456789ABCDEFabcdef".chars() {
        accept(&mut machine, &[&format!("W0fedcba{id}")]);
        no_block(&mut machine, 2_499, 1);
        assert_eq!(block(&mut machine, 0xA0B0C0), format!("R0A0B0C0{id}\n"));
    }
}

#[test]
fn outputs_are_set_at_once_and_a_query_sets_none() {
    let mut machine = on();
    let shown = [
        ("W0FFFFFF", 0xFFFC00),
        ("W0", 0xFFFC00),
        ("W4", 0xFFFC00),
        ("W41234567", 0x123400),
        ("W0000000", 0),
        ("W0abcdef", 0xABCC00),
    ];
    for (text, word) in shown {
        accept(&mut machine, &[text]);
        assert_eq!(one_tick(&mut machine, 0).words, [word; 2], "{text}");
    }
}

#[test]
fn an_accepted_w_takes_the_place_of_an_earlier_one() {
    for before in [0, 1, 2_498, 2_499] {
        let mut machine = on();
        accept(&mut machine, &["W0ABCDEF1"]);
        no_block(&mut machine, before, 7);
        accept(&mut machine, &["W0123456"]);
        no_block(&mut machine, 2_499, 8);
        assert_eq!(block(&mut machine, 9), "R0000009\n");
        no_block(&mut machine, 5_000, 9);
    }
}

#[test]
fn a_silent_w_takes_the_place_and_gives_none() {
    for silent in ["W4", "W4123456", "W4123456A"] {
        let mut machine = on();
        accept(&mut machine, &["W0", silent]);
        no_block(&mut machine, 5_001, 0);
        accept(&mut machine, &["W0ABCDEF2"]);
        no_block(&mut machine, 2_499, 0);
        accept(&mut machine, &[silent]);
        no_block(&mut machine, 5_001, 0);
        accept(&mut machine, &[silent, "W0"]);
        no_block(&mut machine, 2_499, 0);
        assert_eq!(block(&mut machine, 3), "R0000003\n");
    }
}

#[test]
fn a_refused_w_changes_nothing() {
    let mut machine = on();
    accept(&mut machine, &["W05A5A5AF"]);
    ticks(&mut machine, 2_000, 0);
    refused_each(&mut machine, &["W", "W0ABCDEF12"], 4, "U0000004");
    refused_each(&mut machine, &["W1", "WW"], 6, "U0000006");
    refused_each(&mut machine, &["W0G", "W0123456g"], 7, "U0000007");
    refused_each(&mut machine, &["W01", "W012345"], 9, "U0000009");
    refused_each(&mut machine, &["W41", "W412345"], 9, "");
    // Each of these ten lines had one tick before it.
    no_block(&mut machine, 2_499 - 2_010, 0);
    assert_eq!(block(&mut machine, 0x765432), "R0765432F\n");
}

#[test]
fn other_lines_leave_it() {
    let mut machine = on();
    accept(&mut machine, &["W0"]);
    for text in ["P0000005", "Q06", "q08", "Q0B", "Q0D00000", "Q080", "P08F4240"] {
        no_block(&mut machine, 300, 0);
        accept(&mut machine, &[text]);
    }
    assert_eq!(number(&mut machine, "P0900001"), 11);
    no_block(&mut machine, 399, 0);
    assert_eq!(block(&mut machine, 0x800000), "R0800000\n");
}

/// Ticks before the 0D of the line do not count.
#[test]
fn the_line_is_accepted_with_its_0d() {
    let mut machine = on();
    for byte in *b"W0000000" {
        machine.byte(byte, &mut [0; 120]);
        no_block(&mut machine, 400, 0);
    }
    assert_eq!(machine.byte(0x0D, &mut [0; 119]).number, 2);
    no_block(&mut machine, 2_500, 0);
    assert_eq!(machine.byte(0x0D, &mut [0; 120]).len, 0);
    no_block(&mut machine, 2_499, 0);
    assert_eq!(block(&mut machine, 4), "R0000004\n");
}

#[test]
fn everything_keeps_the_last_ticks_inputs() {
    let mut machine = on();
    accept(&mut machine, &["W0ABCDEF1"]);
    assert!(send(&mut machine, "q08").ends_with("\nR0000000"));
    no_block(&mut machine, 2_499, 0x111111);
    assert!(send(&mut machine, "q08000002").ends_with("\nR01111112"));
    assert_eq!(block(&mut machine, 0x222222), "R02222221\n");
    assert!(send(&mut machine, "q08").ends_with("\nR0222222"));
}
