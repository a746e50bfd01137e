//! Stops by order, sensor, emergency and watch: status bits and the counters afterwards.

mod common;
use common::stopped::{stop_by_inputs, stopped_short, DISTANCES};
use common::{accept, assert_shares, number, on, one_tick, send, status_after, ticks, under_way, until_rest};

#[test]
fn stop_by_order() {
    let mut machine = under_way(0);
    assert_eq!(send(&mut machine, "Q09"), "S0900000");
    assert_eq!(machine.status(), 0x0B);
    let count = until_rest(&mut machine, 0);
    assert!(count > 1);
    assert_eq!(machine.status(), 8);
    stopped_short(&machine);
    accept(&mut machine, &["Q080"]);
    assert_eq!(machine.status(), 3);
    assert_eq!(machine.travels(), [0; 5]);
}

#[test]
fn order_9_at_rest_sets_nothing() {
    let mut machine = on();
    assert_eq!(send(&mut machine, "Q0912345"), "S0912345");
    assert_eq!(machine.status(), 0);
}

#[test]
fn stop_before_the_first_tick_ends_without_a_pulse() {
    let mut machine = on();
    accept(&mut machine, &["P0000005", "Q080", "Q09"]);
    assert_eq!(machine.status(), 0x0B);
    assert_eq!(one_tick(&mut machine, 0).pulses, [0; 5]);
    assert_eq!(machine.status(), 8);
    assert_eq!(machine.travels(), [0; 5]);
}

#[test]
fn ramp_down_of_a_stop() {
    let mut machine = on();
    accept(&mut machine, &["P007FFFF", "P08F4240", "P0900FFF", "Q080"]);
    ticks(&mut machine, 100, 0);
    accept(&mut machine, &["Q09"]);
    assert_eq!(until_rest(&mut machine, 0), 100);
}

#[test]
fn stop_by_sensor() {
    let mut machine = stop_by_inputs("Q0D02000", 0x002000, 0, 0x43, 0x40);
    accept(&mut machine, &["Q080"]);
    assert_eq!(machine.status(), 3);
    stop_by_inputs("Q0E02000", 0, 0x002000, 0x43, 0x40);
}

#[test]
fn stop_by_emergency() {
    let mut machine = stop_by_inputs("Q0D01000", 0x001000, 0, 0x23, 0x20);
    assert_eq!(number(&mut machine, "Q080"), 12);
    accept(&mut machine, &["Q0B", "Q080"]);
    assert_eq!(machine.status(), 3);
    stop_by_inputs("Q0E01000", 0, 0x001000, 0x23, 0x20);
}

#[test]
fn stop_by_watch() {
    let mut machine = on();
    accept(&mut machine, &["P007FFFF", "P0800004", "P0B1", "Q080"]);
    assert_eq!(status_after(&mut machine, 999_999, 0), 3);
    assert_eq!(status_after(&mut machine, 1, 0), 0x0B);
    until_rest(&mut machine, 0);
    assert_eq!(machine.status(), 8);
}

#[test]
fn a_speed_change_does_not_undo_a_stop() {
    let mut machine = under_way(0);
    accept(&mut machine, &["Q09", "P08F4240", "P0800001"]);
    ticks(&mut machine, 1, 0);
    accept(&mut machine, &["P08F4240"]);
    until_rest(&mut machine, 0);
    stopped_short(&machine);
}

#[test]
fn a_second_cause_sets_its_bit_too() {
    let mut machine = under_way(0);
    accept(&mut machine, &["Q0E02000", "Q09"]);
    assert_eq!(machine.status(), 0x0B);
    assert_eq!(status_after(&mut machine, 1, 0x2000), 0x4B);
    until_rest(&mut machine, 0);
    assert_eq!(machine.status(), 0x48);
}

#[test]
fn an_order_in_a_sensor_stop_sets_bit_3() {
    let mut machine = under_way(0);
    accept(&mut machine, &["Q0E02000"]);
    ticks(&mut machine, 1, 0x2000);
    accept(&mut machine, &["Q09"]);
    assert_eq!(machine.status(), 0x4B);
}

#[test]
fn emergency_is_held_in_a_tick_only() {
    let mut machine = on();
    accept(&mut machine, &["P0000005", "Q0D01000"]);
    assert_eq!(machine.status(), 0);
    assert_eq!(number(&mut machine, "Q080"), 0);
    assert_eq!(one_tick(&mut machine, 0).pulses, [0; 5]);
    assert_eq!(machine.status(), 0x20);
}

#[test]
fn speed_changes_under_way_keep_shares() {
    let mut machine = under_way(0);
    for setting in ["P0800064", "P08F4240", "P0807A12", "P0800001", "P0830D40"] {
        accept(&mut machine, &[setting]);
        for _ in 0..300 {
            one_tick(&mut machine, 0);
            assert_shares(machine.travels(), DISTANCES, 0);
        }
    }
    until_rest(&mut machine, 0);
    assert_eq!((machine.travels(), machine.status()), (DISTANCES, 0));
}

#[test]
fn without_a_stop_all_axes_send_their_last_pulse_in_one_tick() {
    let mut machine = on();
    accept(&mut machine, &["P0000007", "P018000B", "P0200001", "P030000B", "P08F4240", "P0900FFF", "Q083"]);
    let mut last = [0; 5];
    while machine.status() & 2 != 0 {
        last = one_tick(&mut machine, 0).pulses;
    }
    assert_eq!(last, [1, -1, 1, 1, 0]);
    assert_eq!(machine.travels(), [7, 11, 1, 11, 0]);
}
