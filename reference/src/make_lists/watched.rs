//! Stored lists: the watch as power-on sets it (paper 02, 2/14), and the line that turns it off, over silent ticks.

use super::list_lines::FAST;
use crate::text::Text;

/// Ramp: a crooked move of over five million ticks, at one master pulse in ten ticks; its stop takes 1,222 ticks.
const LONG_MOVE: [&str; 6] = ["P007FFFF", "P01D5555", "P0400001", "P08186A0", "P0900FFF", "Q080"];

/// Ticks of a stop of the long move before the one that ends it and after the one that begins it.
pub(super) const STOP_BETWEEN: u32 = 1_220;

/// Paper 02, 2/14: what the power-on watch stops, and what turns it off before a move.
pub(super) fn watched(text: &mut Text) {
    stopped_long_move(text);
    long_move_running_on(text);
    least_speed(
        text,
        0x04,
        "Watch of power-on, least speed: stopped in tick 1,000,000, two before the first pulse",
        &[],
    );
    least_speed(text, 0x04, "P0B0 first, least speed: the first pulse in tick 1,000,002", &["P0B0"]);
    least_speed(text, 0x05, "P0B00000 first, the writer's line: the same machine as after P0B0", &["P0B00000"]);
    least_speed(text, 0x06, "P4B0 first, silent: the same machine as after P0B0", &["P4B0"]);
    turned_off_under_way(text);
    outputs_at_a_full_count(text);
}

/// Paper 02, 2/14: a list that begins with lines and then the long move.
pub(super) fn long_move_list(text: &mut Text, first: u8, last: u8, words: &str, lines: &[&str]) {
    text.list(first, last, words);
    text.readings();
    text.lines(lines);
    text.lines(&LONG_MOVE);
}

/// Stops: from power-on the stop begins in the tick that finds the count full.
fn stopped_long_move(text: &mut Text) {
    let words = "Watch of power-on: a long move whose line falls silent is stopped in the millionth tick";
    long_move_list(text, 0x0B, 0x0D, words, &["W0A5A5A5"]);
    text.read_after_each(&[999_999, 1, STOP_BETWEEN, 1, 1, 500], 0);
    text.read_lines(&["Q06", "q08000007"]);
    text.end();
}

/// Paper 02, 2/14: P0B0 alone makes the difference; order 9 ends the move later.
fn long_move_running_on(text: &mut Text) {
    let words = "P0B0 first: the same long move runs on past the full count, until order 9";
    long_move_list(text, 0x0B, 0x0C, words, &["P0B0", "W0A5A5A5"]);
    text.read_after_each(&[999_999, 1, STOP_BETWEEN, 1, 1, 98_778], 0);
    text.read_lines(&["Q06", "q08000007", "Q09"]);
    text.read_after_each(&[STOP_BETWEEN + 1, 1], 0);
    text.end();
}

/// Ramp: with V 1 and a 16 the first pulse comes in tick 1,000,002.
fn least_speed(text: &mut Text, switch: u8, words: &str, lines: &[&str]) {
    text.list(switch, switch, words);
    text.lines(lines);
    text.lines(&["P0000002", "P0800001", "Q080"]);
    text.read_after_each(&[1_000_000, 10], 0);
    text.heading("order 9, with effect where the move still runs; then another start, whose first ticks are seen");
    text.read_lines(&["Q06", "Q00", "Q09"]);
    text.read_after_each(&[3, 1], 0);
    text.read_lines(&["Q080"]);
    text.read_after(10, 0);
    text.end();
}

/// Turned away, 11: under way the watch stays as it is, and the line only zeroes the count.
fn turned_off_under_way(text: &mut Text) {
    let words = "P0B0 under way: turned away by 11; the count is zeroed, the watch stays and stops the move";
    long_move_list(text, 0x00, 0x00, words, &[]);
    text.read_after(999_999, 0);
    text.read_lines(&["P0B0", "P0B00000", "P4B0"]);
    text.read_after_each(&[1, 999_998, 1, STOP_BETWEEN, 1], 0);
    text.heading("at rest it is taken, and the move begins again");
    text.read_lines(&["P0B0", "Q0B", "Q080"]);
    text.read_after(1_000, 0);
    text.end();
}

/// Stops: bit 1 of the power-on watch is clear, so a full count keeps the general outputs, in a stored start too.
fn outputs_at_a_full_count(text: &mut Text) {
    text.list(0x08, 0x08, "Watch of power-on: a full count keeps the general outputs and stops a stored start at once");
    text.lines(&FAST);
    text.lines(&["P0A00FA0", "P0000003", "P0180002", "W0FFFFFF"]);
    text.lines_in_dwell(0, &["Q088"]);
    text.read_after_each(&[999_999, 1, 1], 0);
    text.read_lines(&["Q06", "Q080"]);
    text.read_after(1, 0);
    text.end();
}
