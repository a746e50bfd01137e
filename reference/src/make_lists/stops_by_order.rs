//! Stored lists: stops by order 9 in every part of a move.

use crate::text::Text;

/// Stops: by order.
pub(super) fn stops_by_order(text: &mut Text) {
    text.fast_list(
        0x00,
        0x01,
        "Stops by order: on the way up, in the tick before the first pulse, twice, silent, at rest",
        &["P0000028", "P0180027", "P0280013", "P0300001", "P0480028"],
    );
    text.read_lines(&["Q09", "Q06"]);
    stops_on_the_way_up(text);
    speed_changes_in_a_stop(text);
    stops_in_the_last_ramp(text);
    text.end();
}

/// Stops: order 9 after so many ticks, then other lines in the move that is stopping.
fn stops_on_the_way_up(text: &mut Text) {
    for before in [0, 1, 155, 156, 157, 300, 477] {
        text.lines(&["Q080"]);
        text.read_after(before, 0);
        text.read_lines(&["Q09"]);
        text.read_after_each(&[1; 3], 0);
        text.read_lines(&["Q49", "Q080", "P0000001", "Q088"]);
        text.read_after_each(&[before / 2, before], 0);
        text.lines(&["Q06", "q08000001"]);
    }
}

/// Stops: a stop goes on to its end.
fn speed_changes_in_a_stop(text: &mut Text) {
    text.heading("a speed change does not undo a stop");
    for (line, ticks) in [("Q084", 500), ("Q09", 10), ("P08F4240", 10), ("P0800001", 10), ("P08F4240", 600)] {
        text.lines(&[line]);
        text.read_after(ticks, 0);
    }
}

/// Stops: order 9 where the move ramps down by itself.
fn stops_in_the_last_ramp(text: &mut Text) {
    text.heading("order 9 in the last ramp of a move");
    for before in [700, 1_000, 1_300, 1_376, 1_377, 1_378, 1_379] {
        text.lines(&["Q080"]);
        text.read_after(before, 0);
        text.read_lines(&["Q09"]);
        text.read_after_each(&[5, 700], 0);
    }
}
