//! Output words of all four switch groups.

mod common;
use common::{accept, one_tick};
use reference::Machine;
use std::ops::RangeInclusive;

/// Axis 0 plus and axis 1 minus, both of 1 pulse, axis 2 minus of 0; the words at rest before, at the pulse, after.
fn words(switch: u8, polarity: &str, outputs: &str) -> [[u32; 2]; 4] {
    let mut machine = Machine::power_on(switch).0;
    accept(&mut machine, &["P0000001", "P0180001", "P0280000", "P0900FFF", "P08F4240", polarity, outputs]);
    let before = one_tick(&mut machine, 0).words;
    accept(&mut machine, &["Q080"]);
    let under_way = one_tick(&mut machine, 0).words;
    loop {
        let answer = one_tick(&mut machine, 0);
        if answer.pulses != [0; 5] {
            assert_eq!(answer.pulses, [1, -1, 0, 0, 0]);
            return [before, under_way, answer.words, one_tick(&mut machine, 0).words];
        }
        assert_eq!(answer.words, under_way);
    }
}

/// Every switch of a group has these words.
fn group(switches: RangeInclusive<u8>, polarity: &str, outputs: &str, expected: [[u32; 2]; 4]) {
    for switch in switches {
        assert_eq!(words(switch, polarity, outputs), expected, "switch {switch}");
    }
}

#[test]
fn switches_0_to_3() {
    // Bit 1 axis 0 direction, bit 3 axis 1 direction, bit 5 axis 2 direction; pulses at bits 0 and 2.
    group(0..=3, "P0C00000", "W0000000", [[0, 0], [0x28, 0x28], [0x2D, 0x28], [0x28, 0x28]]);
    let outputs_high = [[0xFFFC00; 2], [0xFFFC28; 2], [0xFFFC2D, 0xFFFC28], [0xFFFC28; 2]];
    group(0..=3, "P0C00000", "W0FFFFFF", outputs_high);
    group(0..=3, "P0C00FFF", "W0000000", [[0x3FF; 2], [0x3D7; 2], [0x3D2, 0x3D7], [0x3D7; 2]]);
}

#[test]
fn switches_4_to_7() {
    // Axis 0 plus pulse at bit 0, axis 1 minus pulse at bit 3.
    group(4..=7, "P0C00000", "W0000000", [[0; 2], [0; 2], [0x09, 0], [0; 2]]);
    let one_flipped = [[0x123408; 2], [0x123408; 2], [0x123401, 0x123408], [0x123408; 2]];
    group(4..=7, "P0C00C08", "W0123456", one_flipped);
}

#[test]
fn switches_8_to_b() {
    // Axis 0: pulse 0, inverse 1, direction 2, inverse 3; axis 1 from bit 4; axis 2 from bit 8.
    group(8..=11, "P0C00000", "W0000000", [[0xAAAAA; 2], [0xAA66A; 2], [0xAA659, 0xAA66A], [0xAA66A; 2]]);
    group(8..=11, "P0C00001", "W0FFFFFF", [[0xFAAAA9; 2], [0xFAA669; 2], [0xFAA65A, 0xFAA669], [0xFAA669; 2]]);
}

#[test]
fn switches_d_to_f() {
    group(13..=15, "P0C00000", "W0000000", [[0xAAAAA; 2], [0xAAAAA; 2], [0xAAA69, 0xAAAAA], [0xAAAAA; 2]]);
    group(13..=15, "P0C003FF", "W0700000", [[0x755555; 2], [0x755555; 2], [0x755596, 0x755555], [0x755555; 2]]);
}

#[test]
fn polarity_bits_10_and_11_move_no_line() {
    for switch in [0, 4, 8, 13] {
        assert_eq!(words(switch, "P0C00C00", "W0000000"), words(switch, "P0C00000", "W0000000"));
    }
}

#[test]
fn direction_is_the_latest_moves_not_the_next_ones() {
    let mut machine = Machine::power_on(0).0;
    accept(&mut machine, &["P0080001"]);
    assert_eq!(one_tick(&mut machine, 0).words, [0, 0]);
    accept(&mut machine, &["Q080", "Q09"]);
    assert_eq!(one_tick(&mut machine, 0).words, [2, 2]);
    accept(&mut machine, &["P0000001"]);
    assert_eq!(one_tick(&mut machine, 0).words, [2, 2]);
    accept(&mut machine, &["Q080"]);
    assert_eq!(one_tick(&mut machine, 0).words, [0, 0]);
}

#[test]
fn general_outputs_under_pump_lines_are_hidden() {
    let mut machine = Machine::power_on(8).0;
    accept(&mut machine, &["W00FFFFF"]);
    assert_eq!(one_tick(&mut machine, 0).words, [0x0AAAAA; 2]);
    accept(&mut machine, &["W0F00000"]);
    assert_eq!(one_tick(&mut machine, 0).words, [0xFAAAAA; 2]);
}
