//! Stored lists: entries of whole and stopped moves, of a stored start, and with ticks that are turned away between.

use crate::text::Text;

/// Journal: ends of moves, and the ticks that count for them.
pub(super) fn entries(text: &mut Text) {
    text.fast_list(
        0x00,
        0x00,
        "Entries: whole, stopped with and without travel, whole though a stop had begun, of a stored start",
        &["P0000001", "P0180001", "P0380000"],
    );
    ticks_turned_away(text);
    stops_about_the_last_pulse(text);
    stops_with_travel(text);
    stored_start(text);
    text.end();
}

/// Journal: ticks that are turned away do not count.
fn ticks_turned_away(text: &mut Text) {
    text.heading("one pulse in 207 ticks; ticks turned away before the first, between, before the last and after it");
    text.lines(&["Q080"]);
    text.read_runs(&[(3, 0x0100_0000), (100, 0), (7, 0xFFFF_FFFF), (106, 0), (1, 0x0100_0000), (1, 0)]);
    text.read_runs(&[(1, 0x0100_0000), (2, 0)]);
}

/// Journal: cause 0 where m reached M, also when a stop had begun.
fn stops_about_the_last_pulse(text: &mut Text) {
    text.heading("order 9 after so many ticks: up to 110 the pulse is not reached, from 111 on it is");
    for before in [1, 2, 109, 110, 111, 112, 205, 206] {
        text.lines(&["Q080"]);
        text.ticks(before, 0);
        text.lines(&["Q09"]);
        text.read_after(230, 0);
    }
}

/// Journal: cause 1 with travel; a travel of 0 has no sign.
fn stops_with_travel(text: &mut Text) {
    text.heading("two pulses, stopped after one and before the first; then whole after a position reset");
    text.lines(&["P0000002", "P0180001", "P0280002"]);
    for before in [111, 110] {
        text.lines(&["Q082"]);
        text.ticks(before, 0);
        text.lines(&["Q09"]);
        text.read_after(230, 0);
    }
    text.lines(&["Q080"]);
    text.ticks(200, 0);
    text.lines(&["Q0B"]);
    text.read_after(200, 0);
}

/// Journal: a stored start's own tick counts, and ticks turned away in its place do not.
fn stored_start(text: &mut Text) {
    text.heading("a stored start: ticks turned away before its own tick, after it and in its dwell");
    text.lines(&["P0A00001"]);
    text.lines_in_dwell(0, &["Q088"]);
    text.read_runs(&[(249, 0), (5, 0x0100_0000), (1, 0), (5, 0xFFFF_FFFF), (283, 0), (2, 0x0100_0000), (20, 0)]);
    text.heading("one that order 9 stops after its own tick, and one that fails, which has no entry");
    text.lines_in_dwell(0, &["Q088"]);
    text.read_after_each(&[250], 0);
    text.lines(&["Q09"]);
    text.read_after_each(&[1, 1], 0);
    text.lines(&["Q089"]);
    text.read_after_each(&[248, 1, 1], 0);
}
