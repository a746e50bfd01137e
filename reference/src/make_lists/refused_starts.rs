//! Stored lists: starts turned away by 12 to 17.

use super::list_lines::{silent, ONE_PULSE};
use crate::text::Text;

/// Turned away, 12 to 17: starts, with causes taken away one by one in checking order.
pub(super) fn refused_starts(text: &mut Text) {
    text.fast_list(
        0x00,
        0x01,
        "Starts turned away by 12 to 17 in checking order: the causes are taken away one by one",
        &["P0000001", "Q080"],
    );
    text.ticks(ONE_PULSE, 0);
    text.lines(&["P007FFFF", "P0180001", "Q0E03001"]);
    emergency_before_sensor(text);
    wrong_master_before_no_distance(text);
    blocked_before_final_position(text);
    final_positions_in_range(text);
    text.end();
}

/// Lines: the starts of a master, plain, silent, after the dwell and with identification.
fn starts_of(text: &mut Text, master: u32) {
    let line = format!("Q08{master}");
    text.read_lines(&[&line, &silent(&line), &format!("Q08{:X}", master + 8), &format!("Q08{master}0000A")]);
}

/// Turned away, 12 and 13: the emergency input is freed, the sensor stays active.
fn emergency_before_sensor(text: &mut Text) {
    text.read_after(1, 0x3001);
    (0..3).for_each(|master| starts_of(text, master));
    text.read_after(1, 0x2001);
    text.read_lines(&["Q0B", "Q06"]);
    (0..3).for_each(|master| starts_of(text, master));
}

/// Turned away, 14 and 15: the sensor is freed, then all distances are 0.
fn wrong_master_before_no_distance(text: &mut Text) {
    text.ticks(1, 1);
    starts_of(text, 1);
    text.read_lines(&["Q06", "Q4A", "Q06"]);
    starts_of(text, 2);
    text.lines(&["Q0A", "P0000000", "P0100000"]);
    (0..5).for_each(|master| starts_of(text, master));
}

/// Turned away, 16 and 17: an axis is blocked, then freed.
fn blocked_before_final_position(text: &mut Text) {
    text.heading("blocked comes before a final position out of range");
    text.lines(&["P0000001", "Q0E00000", "Q080"]);
    text.ticks(ONE_PULSE, 1);
    text.lines(&["Q0E00001", "P007FFFF"]);
    starts_of(text, 0);
    text.lines(&["Q0E00000"]);
    starts_of(text, 0);
}

/// Turned away, 17: final positions at both ends of the range and past them.
fn final_positions_in_range(text: &mut Text) {
    text.heading("greatest move that fits, stopped at once; the other direction down to minus 524,288");
    text.read_lines(&["P007FFFE", "Q080", "Q09"]);
    text.read_after(1, 0);
    text.lines(&["P0080002", "Q080"]);
    text.read_after(400, 0);
    text.read_lines(&["P00FFFFF", "Q080", "Q09"]);
    text.read_after(1, 0);
    text.lines(&["P0080001", "Q080"]);
    text.read_after(ONE_PULSE, 0);
    text.read_lines(&["P00FFFFF", "Q080", "Q480", "P00FFFFE", "Q080", "Q09"]);
    text.read_after(1, 0);
    text.heading("an axis that is not the master is out of range");
    text.read_lines(&["P017FFFF", "P00FFFFF", "Q081", "Q0B", "Q081", "Q09"]);
    text.read_after(1, 0);
}
