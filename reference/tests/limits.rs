//! Limits: every bit of low-ON and high-ON, the stops that they cause and those that they do not.

mod common;
use common::stopped::{stop_by_inputs, DISTANCES};
use common::{accept, number, on, one_tick, under_way, until_rest};

#[test]
fn stop_by_limit() {
    // Axis 0 goes plus and axis 1 minus.
    stop_by_inputs("Q0D00002", 0x000002, 0, 0x1B, 8);
    stop_by_inputs("Q0E00001", 0, 0x000001, 0x1B, 8);
    stop_by_inputs("Q0D00004", 0x000004, 0, 0x1B, 8);
    stop_by_inputs("Q0E00008", 0, 0x000008, 0x1B, 8);
}

#[test]
fn limits_of_the_other_direction_do_not_stop() {
    let settings = [("Q0D00001", 0), ("Q0E00002", 0xFFFFFF), ("Q0D00008", 0), ("Q0E00004", 0xFFFFFF)];
    for (setting, word) in settings {
        let mut machine = under_way(word);
        accept(&mut machine, &[setting]);
        until_rest(&mut machine, word);
        assert_eq!((machine.travels(), machine.status()), (DISTANCES, 0));
    }
}

/// The setting bit that blocks an axis in a direction.
fn own_bit(axis: u32, minus: bool, high_on: bool) -> u32 {
    match (high_on, minus) {
        (false, true) | (true, false) => 2 * axis,
        (false, false) | (true, true) => 2 * axis + 1,
    }
}

/// One axis with one setting bit, whose input is low or high: is the axis blocked where it must be?
fn blocked_as_it_must_be(axis: u32, minus: bool, bit: u32, high_on: bool, level: bool) {
    let mut machine = on();
    let distance = format!("P0{axis}{}0001", if minus { 8 } else { 0 });
    let setting = format!("Q0{}{:05X}", if high_on { 'E' } else { 'D' }, 1 << bit);
    accept(&mut machine, &[&distance, &setting]);
    one_tick(&mut machine, if level { 1 << bit } else { 0xFFFFFF & !(1 << bit) });
    let blocked = bit == own_bit(axis, minus, high_on) && level == high_on;
    assert_eq!(machine.status(), if blocked { 0x10 } else { 0 }, "{distance} {setting} {level}");
    assert_eq!(number(&mut machine, &format!("Q08{axis}")), if blocked { 16 } else { 0 });
}

#[test]
fn every_limit_bit_blocks_its_axis_and_direction() {
    for axis in 0..5 {
        for bit in 0..10 {
            for choice in 0..8 {
                blocked_as_it_must_be(axis, choice & 1 != 0, bit, choice & 2 != 0, choice & 4 != 0);
            }
        }
    }
}
