//! Stored lists: the watch, over a million silent ticks.

use crate::line::LINE_END;
use crate::text::Text;

/// Stops: the watch in a move and in a dwell.
pub(super) fn watch(text: &mut Text) {
    watch_in_a_move(text);
    watch_in_a_dwell(text);
}

/// Stops: watch bits 0 and 1 stop the move and clear the general outputs.
fn watch_in_a_move(text: &mut Text) {
    text.list(0x00, 0x00, "Watch 3 in a long crooked move: outputs cleared and stopped at the millionth silent tick");
    text.lines(&["P007FFFF", "P017FFFE", "P02D5555", "P0300001", "P0440000", "P08186A0", "P0900FFF", "P0B3"]);
    text.lines(&["W0FFFFFF", "Q080"]);
    text.read_after(60_000, 0);
    text.heading("a line turned away by 11 zeroes the count; those by 4 to 9, short buffers and large words do not");
    text.lines(&["P0900001"]);
    text.read_after(500_000, 0);
    text.byte(LINE_END, 120);
    text.lines(&["X0", "Q1", "Q0G", "Q05", "P0B", "X4", "Q45", "P4B"]);
    text.bytes(b"Q06\r", 119);
    text.read_after(100, 0x0100_0000);
    text.read_after_each(&[499_998, 1, 1, 1, 600, 700], 0);
    text.heading("at rest with a full count; a line zeroes it and the next start runs");
    text.read_lines(&["Q06", "W0A5A5A5", "q08"]);
    text.ticks(2, 0);
    text.read_lines(&["P0B2", "Q080", "Q0B", "Q080"]);
    text.read_after(2_000, 0);
    text.lines(&["P0B100000", "Q09"]);
    text.read_after(1_300, 0);
    text.end();
}

/// Stops: a stored start at a full watch count.
fn watch_in_a_dwell(text: &mut Text) {
    text.fast_list(
        0x00,
        0x00,
        "Watch 1: a stored start begins, is stopped and ends in the tick that fills the count",
        &["P0A00FA0", "P0B1ABCD", "P0000003", "W0FFFFFF"],
    );
    text.lines_in_dwell(0, &["Q088"]);
    text.read_after_each(&[999_999, 1, 1], 0);
    text.read_lines(&["P0B0", "Q080"]);
    text.read_after(500, 0);
    text.end();
}
