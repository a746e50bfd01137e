//! Stored lists: carry-ons of moves that order 9, a limit, the sensor, the emergency input and the watch stopped.

use super::stopped;
use crate::text::Text;

/// Shares: a crooked move of master distance 400 with 133, minus 267 and minus 400.
const CROOKED: [&str; 4] = ["P0000190", "P0100085", "P028010B", "P0480190"];

/// Paper 02, 6/14: each cause of a stop.
pub(super) fn causes(text: &mut Text) {
    by_order(text);
    by_inputs(text);
    by_emergency(text);
    by_watch(text);
    by_watch_in_a_stored_starts_own_tick(text);
}

/// Stops: order 9 in every part of a move, in its first tick (m = 0) and once the move is slowed.
fn by_order(text: &mut Text) {
    text.fast_list(0x00, 0x01, "Carry-ons: stopped by order 9 again and again, from m = 0 to the whole end", &CROOKED);
    text.lines(&["Q080"]);
    for (before, to_the_end) in [(0, 1), (1, 2), (155, 155), (156, 156), (500, 500), (0, 1), (700, 700)] {
        stopped(text, before, to_the_end + 1);
        text.read_lines(&["Q0C", "Q06"]);
    }
    text.heading("slowed, stopped while it is slow, and sped up under way; order 9 twice and a speed in the stop");
    text.lines(&["P0801000"]);
    stopped(text, 3_000, 60);
    text.read_lines(&["Q0C"]);
    text.read_after(2_000, 0);
    text.lines(&["P08F4240"]);
    text.read_after(300, 0);
    text.lines(&["Q09", "P0800001", "Q49"]);
    text.read_after(400, 0);
    text.read_lines(&["Q0C", "P08F4240"]);
    text.read_after_each(&[800, 1_000, 2_500, 1], 0);
    text.lines(&["q08"]);
    text.end();
}

/// Stops: settings, the word that leaves them free and the word that stops: limits of both directions, sensors.
const INPUTS: [(&str, u32, u32); 7] = [
    ("Q0E00001", 0x0000, 0x0001),
    ("Q0D00002", 0x0002, 0x0000),
    ("Q0E00020", 0x0000, 0x0020),
    ("Q0D00100", 0x0100, 0x0000),
    ("Q0E02000", 0x0000, 0x2000),
    ("Q0D02000", 0x2000, 0x0000),
    ("Q0E02005", 0x0000, 0x2004),
];

/// Stops: limits and the sensor: turned away by 16 and 13 while active, carried on once free, stopped again at once.
fn by_inputs(text: &mut Text) {
    for (setting, free, active) in INPUTS {
        let words = format!("Carry-ons: stopped by an input with {setting}, which turns them away until it is free");
        text.fast_list(0x05, 0x05, &words, &CROOKED);
        text.ticks(1, free);
        text.lines(&[setting, "Q080"]);
        text.read_runs(&[(300, free), (1, active), (300, active)]);
        text.read_lines(&["Q0C", "Q4C", "Q0C00000D", "Q06"]);
        text.read_after(1, free);
        text.read_lines(&["Q0C", "Q06"]);
        text.read_runs(&[(500, free), (1, active), (600, free)]);
        text.heading("the cause comes in the first tick of the carry-on, and order 9 beside it");
        text.lines(&["Q0C"]);
        text.read_runs(&[(1, active), (1, free)]);
        text.lines(&["Q0C", "Q09"]);
        text.read_runs(&[(1, active), (1, free)]);
        text.read_lines(&["Q0C"]);
        text.read_runs(&[(2_500, free), (2_000, free)]);
        text.lines(&["q08"]);
        text.end();
    }
}

/// Turned away, 12: the hold is freed by Q B with its input inactive; positions begin at 0 there, travels do not.
fn by_emergency(text: &mut Text) {
    for (setting, free, active) in [("Q0D01000", 0x1000, 0), ("Q0E01000", 0, 0x1000)] {
        let words = format!("Carry-ons: stopped by emergency with {setting}; held, they are turned away by 12");
        text.fast_list(0x09, 0x09, &words, &CROOKED);
        text.ticks(1, free);
        text.lines(&[setting, "Q080"]);
        text.read_runs(&[(400, free), (1, active), (1, free), (450, free)]);
        text.read_lines(&["Q0C", "Q0C00000C", "Q4C", "Q06"]);
        text.read_after(1, active);
        text.read_lines(&["Q0B", "Q06", "Q0C"]);
        text.read_after(1, free);
        text.read_lines(&["Q0C", "Q0B", "Q06", "Q0C"]);
        text.heading("held again in the carry-on, freed by disabling it, and carried on to the whole end");
        text.read_runs(&[(600, free), (700, active)]);
        text.read_lines(&["Q0C", "Q0D00000", "Q0E00000", "Q0C", "Q0B", "Q0C"]);
        text.read_runs(&[(2_500, active), (2_000, active)]);
        text.lines(&["q08"]);
        text.end();
    }
}

/// Stops: the watch stops the move; the carry-on zeroes its count, and so does one that 26 turns away.
fn by_watch(text: &mut Text) {
    text.list(0x0E, 0x0E, "Carry-ons: stopped by the watch, carried on, stopped by it again; 26 zeroes its count too");
    text.lines(&["P0000003", "P0180002", "P0800001", "P0900FFF", "W0FFFFFF", "P0B3", "Q080"]);
    text.read_after_each(&[999_999, 1, 1], 0);
    text.lines(&["W0F00000"]);
    text.read_lines(&["Q0C"]);
    text.read_after_each(&[999_999, 1, 1], 0);
    text.lines(&["W0700000", "P0B2", "P08F4240", "Q0C"]);
    text.read_after(400, 0);
    text.heading("whole: 26 at nearly a full count, and at a full one; the outputs are cleared in the last tick");
    text.lines(&["Q0C00000A"]);
    text.read_after(999_999, 0);
    text.lines(&["Q4C"]);
    text.read_after_each(&[999_998, 1, 1], 0);
    text.read_lines(&["W0F00000", "Q0C"]);
    text.read_after(2, 0);
    text.end();
}

/// Stops: a stored start begins under a full count and ends in its own tick; that move is the one carried on.
fn by_watch_in_a_stored_starts_own_tick(text: &mut Text) {
    let lines = ["P0A00FA0", "P0B1", "P0000003", "P0100001"];
    text.fast_list(0x06, 0x06, "Carry-ons: a stored start that a full watch count stopped in its own tick", &lines);
    text.lines_in_dwell(0, &["Q088"]);
    text.read_after_each(&[999_999, 1], 0);
    text.read_lines(&["Q0C", "Q06"]);
    text.read_after_each(&[361, 1, 1], 0);
    text.end();
}
