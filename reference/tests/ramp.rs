//! Ramp: boundaries of its rules, and pulse ticks worked out apart from this code with unbounded integers.

mod common;
use common::{accept, on, one_tick};
use reference::ramp::{advance, approach, remaining, running_speed, slow_down, stopping_tick, RampTick};
use reference::Machine;

#[test]
fn slowing_down() {
    assert_eq!(slow_down(9, 3), 6);
    assert_eq!(slow_down(6, 3), 3);
    assert_eq!(slow_down(5, 3), 3);
    assert_eq!(slow_down(3, 3), 3);
    assert_eq!(slow_down(2, 3), 2);
    assert_eq!(slow_down(0, 3), 0);
}

#[test]
fn approaching() {
    assert_eq!(approach(0, 50, 16), 16);
    assert_eq!(approach(40, 50, 16), 50);
    assert_eq!(approach(50, 50, 16), 50);
    assert_eq!(approach(60, 50, 16), 50);
    assert_eq!(approach(67, 50, 16), 51);
}

#[test]
fn braking_begins_at_equality() {
    // 2 × 2 × 25 = 10 × 10.
    assert_eq!(running_speed(10, 2, 1, 25), 8);
    assert_eq!(running_speed(10, 2, 1, 26), 12);
    assert_eq!(running_speed(10, 2, 1, 24), 8);
    assert_eq!(running_speed(2, 2, 1, 1), 2);
}

#[test]
fn remaining_and_phase() {
    assert_eq!(remaining(5, 3, 1), 99_999_999);
    assert_eq!(remaining(524_287, 0, 0), 26_214_350_000_000);
    assert_eq!(advance(1, 49_999_998), RampTick::Going { speed: 1, phase: 49_999_999, pulse: false });
    assert_eq!(advance(1, 49_999_999), RampTick::Going { speed: 1, phase: 0, pulse: true });
    assert_eq!(advance(50_000_000, 7), RampTick::Going { speed: 50_000_000, phase: 7, pulse: true });
}

#[test]
fn stopping() {
    assert_eq!(stopping_tick(16, 49_999_999, 16), RampTick::Ended);
    assert_eq!(stopping_tick(17, 49_999_999, 16), RampTick::Going { speed: 1, phase: 0, pulse: true });
}

/// The ticks of the master pulses until the move ends, and the tick of the end; lines go in before the tick named.
fn pulse_ticks(machine: &mut Machine, changes: &[(u32, &str)]) -> (Vec<u32>, u32) {
    let mut ticks = Vec::new();
    let mut count = 0;
    while machine.status() & 2 != 0 {
        for (_, text) in changes.iter().filter(|change| change.0 == count) {
            accept(machine, &[text]);
        }
        count += 1;
        if one_tick(machine, 0).pulses[0] != 0 {
            ticks.push(count);
        }
    }
    (ticks, count)
}

fn move_of(distance: u32, slope: u32, speed: u32) -> Machine {
    let mut machine = on();
    let lines = [format!("P00{distance:05X}"), format!("P09{slope:05X}"), format!("P08{speed:05X}")];
    for line in lines {
        accept(&mut machine, &[&line]);
    }
    accept(&mut machine, &["Q080"]);
    machine
}

#[test]
fn pulse_ticks_of_short_moves() {
    assert_eq!(pulse_ticks(&mut move_of(1, 4_095, 1_000_000), &[]), (vec![207], 207));
    assert_eq!(pulse_ticks(&mut move_of(3, 4_095, 1_000_000), &[]), (vec![156, 226, 362], 362));
    assert_eq!(pulse_ticks(&mut move_of(2, 16, 10_000), &[]), (vec![2_500, 4_999], 4_999));
    assert_eq!(pulse_ticks(&mut move_of(5, 4_095, 40_000), &[]), (vec![156, 221, 273, 338, 480], 480));
}

#[test]
fn ends_of_long_moves() {
    assert_eq!(pulse_ticks(&mut move_of(1_000, 4_095, 1_000_000), &[]).1, 6_890);
    assert_eq!(pulse_ticks(&mut move_of(524_287, 4_095, 1_000_000), &[]).1, 536_497);
    assert_eq!(pulse_ticks(&mut move_of(1_000, 16, 10_000), &[]).1, 131_249);
}

#[test]
fn a_stop_and_speed_changes() {
    let (ticks, end) = pulse_ticks(&mut move_of(1_000, 4_095, 1_000_000), &[(500, "Q09")]);
    assert_eq!((ticks.len(), end), (20, 1_000));
    let changes = [(3_000, "P08007D0"), (9_000, "P08F4240")];
    let (ticks, end) = pulse_ticks(&mut move_of(1_000, 100, 1_000_000), &changes);
    assert_eq!((ticks.len(), end), (1_000, 52_025));
    assert_eq!(ticks[..6], [1_000, 1_414, 1_732, 2_000, 2_236, 2_449]);
    assert_eq!(ticks[997..], [50_759, 51_170, 52_025]);
}
