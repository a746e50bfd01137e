//! Stored lists: stored starts that begin, that are replaced, that are dropped.

use super::list_lines::{distance_line, FOUR_PULSES, ONE_PULSE};
use crate::text::Text;

/// Lines: starts after the dwell.
pub(super) fn stored_starts(text: &mut Text) {
    stored_starts_of_each_master(text);
    other_stored_starts(text);
    dropped_stored_starts(text);
}

/// Lines: a stored start of each master.
fn stored_starts_of_each_master(text: &mut Text) {
    text.fast_list(0x00, 0x01, "Stored starts of each master begin in the tick that ends the dwell", &["P0A00001"]);
    for master in 0..5 {
        for axis in 0..5 {
            let distance = if axis == master { 4 } else { (axis + master) % 4 };
            text.lines(&[&distance_line(axis, (axis + master) % 2 == 1, distance)]);
        }
        text.stop_into_dwell(&format!("Q08{master}"), 0);
        text.read_lines(&[&format!("Q08{:X}", master + 8), "Q06"]);
        text.read_after_each(&[249, 1], 0);
        text.lines(&["q08"]);
        text.read_after_each(&[1, FOUR_PULSES, 250], 0);
    }
    text.end();
}

/// Lines: starts after the dwell where none runs, replaced ones, and settings changed while one waits.
fn other_stored_starts(text: &mut Text) {
    text.fast_list(
        0x00,
        0x00,
        "Stored starts: without a dwell plain, replaced, silent, with distances changed while waiting",
        &["P0A00001", "P0000003", "P0180003", "P0300003"],
    );
    text.read_lines(&["Q08B", "Q06"]);
    text.read_after(100, 0);
    text.read_lines(&["Q088", "Q080", "Q48C"]);
    text.lines(&["Q09"]);
    text.read_after(400, 0);
    text.stop_into_dwell("Q08B1234A", 0);
    text.heading("a later one replaces the first: a wrong one before a good one, a good one before a wrong one");
    text.lines(&["Q08A", "Q089ABCDF"]);
    text.read_after_each(&[250, FOUR_PULSES], 0);
    text.stop_into_dwell("Q480", 0);
    text.lines(&["Q488", "Q48A"]);
    text.read_after_each(&[250, 600], 0);
    text.lines(&["Q0A"]);
    text.heading("distances, speed, dwell and slope set while it waits are those of the move");
    text.lines_in_dwell(0, &["Q08C", "P0400004", "P0000001", "P0180000", "P0A00002", "P0900800", "P0C00111"]);
    text.read_after_each(&[249, 1, 700, 500], 0);
    text.end();
}

/// Lines: order 9 and a plain start drop a stored one; a refused plain start does not.
fn dropped_stored_starts(text: &mut Text) {
    text.fast_list(
        0x00,
        0x00,
        "Stored starts dropped by order 9 and by a plain start; a refused plain start leaves them",
        &["P0A00001", "P0000003", "P0180002"],
    );
    text.lines_in_dwell(0, &["Q088"]);
    text.read_after(100, 0);
    text.read_lines(&["Q09"]);
    text.read_after_each(&[149, 1, 100], 0);
    text.lines_in_dwell(0, &["Q088"]);
    text.read_after(10, 0);
    text.read_lines(&["P0000001", "P0180001", "Q081"]);
    text.read_after_each(&[ONE_PULSE, 249, 100], 0);
    text.heading("refused by 14 in the dwell: bit 2 is set, the stored one still begins and bit 2 stays");
    text.lines(&["P0000003"]);
    text.stop_into_dwell("Q080", 0);
    text.read_lines(&["Q088", "Q081", "Q085", "Q08"]);
    text.read_after_each(&[249, 1, FOUR_PULSES], 0);
    text.read_lines(&["Q0A"]);
    text.heading("order 9 in a dwell with nothing stored; the same start stored anew");
    text.read_lines(&["Q09", "Q088", "Q09", "Q088"]);
    text.read_after_each(&[250, FOUR_PULSES], 0);
    text.end();
}
