//! Stored lists: the ramp at greatest and least speed and slope, at the settings of power-on, and between.

use super::list_lines::distance_line;
use crate::text::Text;

/// Ramp: one pulse a tick, the least speed, the least slope.
pub(super) fn extremes(text: &mut Text) {
    one_pulse_a_tick(text);
    least_slope(text);
    power_on_settings(text);
    slopes_and_speeds_between(text);
}

/// Ramp: greatest speed and slope.
fn one_pulse_a_tick(text: &mut Text) {
    text.fast_list(
        0x00,
        0x00,
        "Greatest speed and slope: one pulse in every tick, read pulse by pulse, then to the end",
        &["P0004E20", "P0184E1F", "P0201A0B", "P0300003", "P0484E20", "Q080"],
    );
    text.read_after(155, 0);
    text.read_after_each(&[1; 4], 0);
    text.read_after(12_051, 0);
    text.read_after_each(&[1; 24], 0);
    text.read_after_each(&[7_700, 6_000, 6_000], 0);
    text.read_after_each(&[20; 30], 0);
    text.lines(&["q08"]);
    text.end();
}

/// Ramp: slope 1.
fn least_slope(text: &mut Text) {
    text.list(0x00, 0x00, "Least slope: the first pulse in tick 10,000 at the earliest, and a whole move of one pulse");
    text.lines(&["P0900001", "P08F4240", "P0000003", "P0180002", "Q080"]);
    text.read_after_each(&[9_999, 1, 1], 0);
    text.lines(&["Q09"]);
    text.read_after_each(&[5_000, 10_000], 0);
    text.lines(&["P0000001", "P0180001", "Q080"]);
    text.read_after_each(&[1_420; 10], 0);
    text.end();
}

/// Ramp: the settings of power-on, then speed 1.
fn power_on_settings(text: &mut Text) {
    text.list(
        0x00,
        0x00,
        "Settings of power-on: V 10,000 and a 16; then least speed and least slope; then a 16 and V high",
    );
    text.lines(&["P0000003", "P0180001", "Q080"]);
    text.read_after_each(&[620; 10], 0);
    text.lines(&["P0800001", "P0900001"]);
    text.lines_in_dwell(0, &["Q080"]);
    text.read_after_each(&[1, 49, 51], 0);
    text.read_lines(&["Q09"]);
    text.read_after_each(&[49, 1], 0);
    text.lines(&["P08F4240", "P0900010", "P00003E8", "Q080"]);
    text.read_after_each(&[2_499, 1, 3_000], 0);
    text.heading("least speed under way: u falls by a to 50 and stays there");
    text.read_lines(&["P0800001"]);
    text.read_after_each(&[1_000; 6], 0);
    text.lines(&["P0800002"]);
    text.read_after(10, 0);
    text.read_lines(&["Q09"]);
    text.read_after_each(&[6, 1], 0);
    text.end();
}

/// Ramp: slope, speed, distance of the master, and more ticks than the move takes.
const MOVES: [(u32, u32, u32, u32); 8] = [
    (0xFFF, 0xF4240, 1, 300),
    (0xFFF, 0x00FFF, 2, 600),
    (0x800, 0xF4240, 9, 1_200),
    (0x7FF, 0x10000, 5, 1_000),
    (0x100, 0x08000, 7, 2_500),
    (0x100, 0x002BC, 1, 1_800),
    (0x0FF, 0xF4240, 9, 3_000),
    (0x010, 0xF4240, 2, 6_000),
];

/// Ramp: short moves with slopes and speeds between the extremes.
fn slopes_and_speeds_between(text: &mut Text) {
    text.list(0x00, 0x00, "Slope 1 to 4,095 and speeds between, with moves of 1 to 9 pulses to their ends");
    for (slope, speed, distance, ticks) in MOVES {
        text.lines(&[&format!("P09{slope:05X}"), &format!("P08{speed:05X}"), &distance_line(0, false, distance)]);
        text.lines(&[&distance_line(1, true, distance / 2), "Q080"]);
        text.read_after_each(&[ticks / 6; 6], 0);
        text.lines(&["Q06", "q00", "Q09"]);
        text.read_after(ticks, 0);
    }
    text.end();
}
