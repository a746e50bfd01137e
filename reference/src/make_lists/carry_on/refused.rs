//! Stored lists: carry-ons that are turned away by 11, 26, 12, 13 and 16.

use super::FIVE;
use crate::text::Text;

/// Paper 02, 6/14: 26 with all that leads to it, and the order of the numbers.
pub(super) fn refused(text: &mut Text) {
    nothing_left(text);
    distance_lines(text);
    order(text);
    limits(text);
    open_distances(text);
}

/// Lines: a carry-on, with free digits, with an identification and silent.
fn carry_ons(text: &mut Text) {
    text.read_lines(&["Q0C", "Q0CABC", "Q0C00000A", "Q4C", "Q4CFFFFF0"]);
}

/// Turned away, 26: before any move, after whole moves, after a stop that came too late, and 11 in a move.
fn nothing_left(text: &mut Text) {
    text.fast_list(0x00, 0x0F, "Carry-ons turned away by 26: before any move, after whole moves; 11 in a move", &[]);
    carry_ons(text);
    text.lines(&["P0000001", "P0180001", "Q09", "Q0B"]);
    text.read_after(2, 0);
    carry_ons(text);
    text.lines(&["Q080"]);
    carry_ons(text);
    text.read_after(100, 0);
    carry_ons(text);
    text.read_after(107, 0);
    carry_ons(text);
    text.heading("order 9 before the last pulse: up to 110 ticks it is stopped short, from 111 on it is whole: 26");
    for before in [110, 111, 206] {
        text.lines(&["Q080"]);
        text.ticks(before, 0);
        text.lines(&["Q09"]);
        carry_ons(text);
        text.read_after(220 - before, 0);
        text.read_lines(&["Q0C00000B"]);
        text.read_after(208, 0);
        carry_ons(text);
    }
    text.end();
}

/// Turned away, 26: an accepted distance line of the same value, of another axis, silent, of the minus direction.
fn distance_lines(text: &mut Text) {
    text.fast_list(0x02, 0x02, "Carry-ons turned away by 26: an accepted distance line came after the stop", &FIVE);
    for line in ["P0000005", "P4000005", "P0100002", "P0200003", "P0280003A", "P0300000", "P4480000B", "P0400000"] {
        text.stop_into_dwell("Q080", 0);
        text.lines(&["Q0C", "Q09"]);
        text.ticks(1, 0);
        text.read_lines(&[line]);
        carry_ons(text);
        text.heading("a start that is turned away does not bring it back, one that takes effect is carried on itself");
        text.read_lines(&["Q081", "Q0C", "Q080", "Q09", "Q0C"]);
        text.ticks(1, 0);
        text.read_lines(&["Q0C", "Q0A"]);
        text.read_after(480, 0);
        carry_ons(text);
    }
    text.end();
}

/// Turned away, 11, 26, 12, 13 and 16: all causes at once, taken away one by one, first with nothing left open.
fn order(text: &mut Text) {
    text.fast_list(
        0x00,
        0x01,
        "Carry-ons turned away in checking order: 11, 26, 12, 13, 16, taken away one by one",
        &FIVE,
    );
    for open in [false, true] {
        text.lines(&["Q0E00000", "Q0B", "Q080"]);
        text.ticks(300, 0);
        text.lines(&["Q0E03021"]);
        carry_ons(text);
        text.read_after(200, 0x3021);
        if !open {
            text.lines(&["P0000005"]);
        }
        for word in [0x3021, 0x2021, 0x0021, 0x0020, 0x0001, 0x0000] {
            text.read_after(1, word);
            carry_ons(text);
            text.read_lines(&["Q0B", "Q06"]);
            carry_ons(text);
            text.lines(&["Q09"]);
            text.ticks(1, word);
        }
    }
    text.end();
}

/// Turned away, 16: each bit of low-ON and high-ON alone, against a move with axes 1 and 4 at rest.
fn limits(text: &mut Text) {
    let lines = ["P0000005", "P0280003", "P0300005", "P0480000", "Q080"];
    text.fast_list(0x03, 0x03, "Carry-ons turned away by 16: each limit against each open distance", &lines);
    text.ticks(200, 0);
    text.lines(&["Q09"]);
    text.read_after(250, 0);
    for bit in 0..10 {
        for (letter, active) in [('D', 0x0000), ('E', 0x03FF)] {
            text.ticks(1, active);
            text.read_lines(&[&format!("Q0{letter}{:05X}", 1 << bit), "Q06", "Q0C", "Q09"]);
            text.lines(&[&format!("Q0{letter}00000")]);
            text.read_after(1, active);
        }
    }
    text.lines(&["Q0C"]);
    text.read_after(500, 0);
    text.end();
}

/// Turned away, 17, over the open distances: the whole ones are out of range at either end, the open ones never.
fn open_distances(text: &mut Text) {
    text.fast_list(0x07, 0x07, "Carry-ons where a start is turned away by 17: the open distances are in range", &[]);
    for lines in [&["P007FFFF", "P0180001"][..], &["P00FFFFF", "P0100001"]] {
        text.lines(&["Q0B"]);
        text.lines(lines);
        text.lines(&["Q080"]);
        for before in [2_000, 500] {
            text.read_after(before, 0);
            text.lines(&["Q09"]);
            text.read_after(before, 0);
            text.read_lines(&["Q080", "Q088", "Q0C", "Q00", "q00"]);
        }
        text.read_after_each(&[540_000, 2_000], 0);
        text.lines(&["q08", "Q0C"]);
    }
    text.end();
}
