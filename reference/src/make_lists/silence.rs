//! Stored lists: which calls break the silence of a line under the watch of power-on (paper 02, 2/14).

use super::list_lines::FOUR_PULSES;
use super::watched::{long_move_list, STOP_BETWEEN};
use crate::line::LINE_END;
use crate::text::Text;

/// Lines: accepted lines, and those turned away by 10 to 17, zero the count; no other call does.
pub(super) fn silence(text: &mut Text) {
    lines_that_postpone_nothing(text);
    large_words_that_count_nothing(text);
    value_out_of_range(text);
    starts_turned_away_in_a_dwell(text);
}

/// Turned away, 4 to 9: each number, replied and silent, with the count one short of full; 2 and a half line too.
fn lines_that_postpone_nothing(text: &mut Text) {
    let words = "Watch of power-on: lines turned away by 4 to 9, and half a line, do not postpone the stop";
    long_move_list(text, 0x01, 0x01, words, &[]);
    text.read_after(999_999, 0);
    text.byte(LINE_END, 120);
    text.lines(&["P000000011", "X0", "Q1", "Q0G", "Q05", "P0B", "P400000011", "X4", "Q4G", "Q45", "P4B"]);
    text.bytes(b"Q06\r", 119);
    text.bytes(b"Q0", 120);
    text.readings();
    text.read_after_each(&[1, STOP_BETWEEN, 1], 0);
    text.heading("the half line is ended: the status");
    text.bytes(b"6\r", 120);
    text.end();
}

/// Turned away, 3: a tick that is turned away neither raises the count nor zeroes it.
fn large_words_that_count_nothing(text: &mut Text) {
    let words = "Watch of power-on: over-large words do not raise the count, nor zero it";
    long_move_list(text, 0x02, 0x02, words, &[]);
    text.read_runs(&[(50, 0x0100_0000), (999_998, 0), (50, 0xFFFF_FFFF), (1, 0), (50, 0x0100_0000), (1, 0)]);
    text.read_runs(&[(50, 0xFFFF_FFFF), (STOP_BETWEEN, 0), (1, 0x0100_0000), (1, 0)]);
    text.lines(&["Q06"]);
    text.end();
}

/// Turned away, 10: a watch over 3 leaves the watch and zeroes the count.
fn value_out_of_range(text: &mut Text) {
    let words = "Watch of power-on: P0B4 is turned away by 10 and postpones the stop; order 9 stops";
    long_move_list(text, 0x03, 0x03, words, &[]);
    text.read_after(999_999, 0);
    text.read_lines(&["P0B4"]);
    text.read_after_each(&[1, 1], 0);
    text.read_lines(&["Q09"]);
    text.read_after_each(&[STOP_BETWEEN + 1, 1], 0);
    text.end();
}

/// Turned away, 13, 14 and 16: one tick before a stored start is due. Under 12, 15 and 17 it would not begin either.
fn starts_turned_away_in_a_dwell(text: &mut Text) {
    text.fast_list(
        0x07,
        0x07,
        "Watch of power-on: starts turned away by 13, 14 and 16 in a dwell; the stored start then runs",
        &["P0A00FA0", "P0000003", "P0180002", "Q0E02001"],
    );
    for (start, word) in [("Q080", 0x2000), ("Q081", 0), ("Q080", 1)] {
        text.lines_in_dwell(0, &["Q088"]);
        text.read_runs(&[(999_998, 0), (1, word)]);
        text.read_lines(&[start]);
        text.read_after_each(&[1, FOUR_PULSES], 0);
        text.read_lines(&["Q0A"]);
    }
    text.end();
}
