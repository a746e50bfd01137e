//! Moves of 1,000 pulses plus on axis 0 and 400 minus on axis 1 that are stopped short.

use super::{accept, assert_shares, on, one_tick, status_after, until_rest};
use reference::Machine;

/// The distances of the move.
pub const DISTANCES: [u32; 5] = [1_000, 400, 0, 0, 0];

/// The move has stopped short with true counters.
pub fn stopped_short(machine: &Machine) {
    assert_eq!(machine.status() & 3, 0);
    let travels = machine.travels();
    assert!(travels[0] > 0 && travels[0] < 1_000);
    assert_shares(travels, DISTANCES, 0);
    assert_eq!(machine.positions(), [travels[0] as i32, -(travels[1] as i32), 0, 0, 0]);
}

/// A setting line, the word while running and the word that stops.
pub fn stop_by_inputs(setting: &str, free: u32, stopping: u32, bits_under_way: u32, bits_at_rest: u32) -> Machine {
    let mut machine = on();
    accept(&mut machine, &["P00003E8", "P0180190", "P08F4240", "P0900FFF"]);
    one_tick(&mut machine, free);
    accept(&mut machine, &[setting, "Q080"]);
    assert_eq!(status_after(&mut machine, 500, free), 3);
    assert_eq!(status_after(&mut machine, 1, stopping), bits_under_way);
    until_rest(&mut machine, free);
    assert_eq!(machine.status(), bits_at_rest);
    stopped_short(&machine);
    machine
}
