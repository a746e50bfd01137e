//! Stored lists: stored starts that fail by 12 to 17 as the dwell runs out.

use super::list_lines::FOUR_PULSES;
use crate::text::Text;

/// Turned away, 12 to 17: a list for each number.
pub(super) fn stored_starts_that_fail(text: &mut Text) {
    failing_by_emergency(text);
    failing_by_sensor(text);
    failing_by_wrong_master(text);
    failing_by_no_distance(text);
    failing_by_limit(text);
    failing_by_final_position(text);
}

/// Ramp: a list of fast moves of 3 and minus 2 pulses with a dwell of 1 ms, 250 ticks.
fn dwell_list(text: &mut Text, words: &str) {
    text.fast_list(0x00, 0x01, words, &["P0A00001", "P0000003", "P0180002", "W0F0F0F0"]);
}

/// Turned away, 12.
fn failing_by_emergency(text: &mut Text) {
    dwell_list(text, "Stored start that fails by 12: emergency held before, and held in that very tick");
    text.lines(&["Q0E01000"]);
    text.stop_into_dwell("Q080", 0);
    text.read_lines(&["Q088"]);
    text.read_runs(&[(100, 0), (1, 0x1000), (148, 0), (1, 0), (300, 0)]);
    text.read_lines(&["Q080", "Q0B", "Q06"]);
    text.lines_in_dwell(0, &["Q088"]);
    text.read_runs(&[(249, 0), (1, 0x1000), (300, 0x1000)]);
    text.end();
}

/// Turned away, 13.
fn failing_by_sensor(text: &mut Text) {
    dwell_list(text, "Stored start that fails by 13, and one whose sensor is free in its own tick");
    text.lines(&["Q0D02000"]);
    text.ticks(1, 0x2000);
    text.lines_in_dwell(0x2000, &["Q088"]);
    text.read_runs(&[(249, 0x2000), (1, 0), (300, 0x2000)]);
    text.lines_in_dwell(0x2000, &["Q088"]);
    text.read_runs(&[(249, 0), (1, 0x2000), (FOUR_PULSES, 0x2000)]);
    text.end();
}

/// Turned away, 14.
fn failing_by_wrong_master(text: &mut Text) {
    dwell_list(text, "Stored start that fails by 14: bit 2 is set in that tick");
    text.lines_in_dwell(0, &["Q089"]);
    text.read_after_each(&[249, 1, 300], 0);
    text.read_lines(&["Q06", "Q0A", "Q06", "Q080"]);
    text.read_after(FOUR_PULSES, 0);
    text.end();
}

/// Turned away, 15.
fn failing_by_no_distance(text: &mut Text) {
    dwell_list(text, "Stored start that fails by 15: all distances 0");
    text.lines_in_dwell(0, &["Q088", "P0000000", "P0180000"]);
    text.read_after_each(&[249, 1, 300], 0);
    text.end();
}

/// Turned away, 16.
fn failing_by_limit(text: &mut Text) {
    dwell_list(text, "Stored start that fails by 16: an axis blocked");
    text.lines(&["Q0E0000F"]);
    text.lines_in_dwell(0, &["Q088"]);
    text.read_runs(&[(249, 0), (1, 8), (300, 8)]);
    text.ticks(1, 6);
    text.lines_in_dwell(6, &["Q088"]);
    text.read_runs(&[(249, 15), (1, 6), (FOUR_PULSES, 6)]);
    text.end();
}

/// Turned away, 17.
fn failing_by_final_position(text: &mut Text) {
    dwell_list(text, "Stored starts that fail by 17: final position over 524,287, and under minus 524,288");
    text.lines(&["Q080"]);
    text.ticks(FOUR_PULSES, 0);
    text.lines_in_dwell(0, &["Q088", "P007FFFD"]);
    text.read_after_each(&[249, 1, 300], 0);
    text.lines(&["P0000003"]);
    text.stop_into_dwell("Q080", 0);
    text.heading("a final position of 524,287 and one of minus 524,288 are in range");
    text.lines(&["Q089", "P007FFFC", "P01FFFFE"]);
    text.read_after(250, 0);
    text.read_lines(&["Q09"]);
    text.read_after(1, 0);
    text.lines(&["Q089", "P0000000", "P01FFFFF"]);
    text.read_after_each(&[250, 300], 0);
    text.end();
}
