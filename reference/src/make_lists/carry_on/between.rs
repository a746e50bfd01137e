//! Stored lists: what happens between a stop and its carry-on: dwells, stored starts, settings, position resets.

use super::FIVE;
use crate::text::Text;

/// Paper 02, 6/14: a running dwell ends and a stored start is dropped; a failed one leaves all as it is.
pub(super) fn between(text: &mut Text) {
    dwells(text);
    stored_starts_that_fail(text);
    settings(text);
    position_resets(text);
    settled_inputs(text);
}

/// Ramp: a dwell of 1 ms, in which start, order 9 and carry-on follow each other.
fn dwells(text: &mut Text) {
    text.fast_list(0x00, 0x03, "Carry-ons: a running dwell ends, and a stored start is dropped", &FIVE);
    text.lines(&["P0A00001"]);
    text.heading("no stored start; in the first tick of the dwell, in its last, and after it");
    for before in [0, 1, 248, 249, 250, 300] {
        text.stop_into_dwell("Q080", 0);
        text.read_after(before, 0);
        text.read_lines(&["Q0C"]);
        text.read_after_each(&[250, 229, 1, 1, 249], 0);
    }
    text.heading("a stored start, one that would fail, one that order 9 drops; then one stored behind the carry-on");
    for lines in [&["Q088"][..], &["Q089"], &["Q08C", "Q09"], &["Q48A0000A"]] {
        text.lines_in_dwell(0, lines);
        text.read_after(100, 0);
        text.read_lines(&["Q0C", "Q088"]);
        text.read_after_each(&[250, 230], 0);
        text.lines(&["Q088"]);
        text.read_after_each(&[249, 1, 479, 1], 0);
        text.read_after(250, 0);
    }
    text.heading("turned away by 13 in the dwell: both stay, and the stored start begins a move of its own");
    text.lines_in_dwell(0, &["Q088", "Q0D02000", "Q0C", "Q0C00000B"]);
    text.read_after_each(&[249, 1, 479, 1], 0x2000);
    text.lines(&["Q0C", "Q0D00000"]);
    text.end();
}

/// Turned away, 12 to 17: the setting line of a stored start that fails, its start and its word. No distance line.
const FAILING: [(&str, &str, u32); 5] = [
    ("Q0E01000", "Q088", 0x1000),
    ("Q0E02000", "Q088", 0x2000),
    ("Q0E00000", "Q089", 0),
    ("Q0E00001", "Q088", 0x0001),
    ("Q0E00020", "Q088", 0x0020),
];

/// Paper 02, 6/14: a stored start that fails has taken no effect.
fn stored_starts_that_fail(text: &mut Text) {
    text.fast_list(0x04, 0x04, "Carry-ons: a stored start that failed between leaves the stopped move", &FIVE);
    text.lines(&["P0A00001", "Q080"]);
    for (setting, stored, word) in FAILING {
        text.ticks(60, 0);
        text.read_lines(&["Q09"]);
        text.ticks(60, 0);
        text.lines(&[stored, setting]);
        text.read_runs(&[(189, 0), (1, word), (1, 0)]);
        text.read_lines(&["Q0B", "Q06", "Q0C", "Q0A", "Q06"]);
    }
    text.read_after_each(&[479, 1], 0);
    text.heading("17: a stored start of the longest distance fails, the stopped one runs on");
    text.lines(&["P0A00001", "P0100000", "P0200000", "P007FFFF", "Q0B", "Q080"]);
    text.read_after(1_000, 0);
    text.lines(&["Q09"]);
    text.read_after(1_000, 0);
    text.lines(&["Q080", "Q088", "Q0C", "Q06"]);
    text.read_after(1_000, 0);
    text.end();
}

/// Lines: settings, readings and refused lines that leave the stopped move, each followed by a carry-on.
const LEAVING: &str = "P08F4240|P0900FFF|P0A00000|P0B0|P0B1|P0C00FFF|P0C00000|Q09|Q49|Q0A|Q0B|Q4B|Q0D00000|Q0E00000|\
    Q00|Q06|q00|q08000003|W0|W0ABCDEF|W4|P00|P000005|P0500005|P000000G|P0000005g|P0000005AA|P1000005|X0000005|P0900000|\
    P08F4241|Q081|Q482|Q085|Q08|Q0|Q0F|q0C|P0E00000";

/// Paper 02, 6/14: only an accepted distance line and a start that takes effect end the right to carry on.
fn settings(text: &mut Text) {
    text.fast_list(0x08, 0x08, "Carry-ons: settings, readings, resets and refused lines leave the stopped move", &FIVE);
    text.stop_into_dwell("Q080", 0);
    for line in LEAVING.split('|') {
        text.read_lines(&[line, "Q0C"]);
        text.ticks(3, 0);
        text.lines(&["Q09"]);
        text.read_after(4, 0);
    }
    text.heading("slope and speed are those set then: 16 and slow, then fast again");
    text.lines(&["P0900010", "Q0C"]);
    text.read_after_each(&[2_499, 1], 0);
    text.lines(&["P0800400", "Q09"]);
    text.read_after(2_600, 0);
    text.lines(&["P0900FFF", "P0C00155", "Q0C"]);
    text.read_after(20_000, 0);
    text.lines(&["P08F4240"]);
    text.read_after(50_000, 0);
    text.end();
}

/// Shares: a position reset at rest and under way; travels go on, positions count from there.
fn position_resets(text: &mut Text) {
    let lines = ["P00003E8", "P010014D", "P020029B", "P0300001", "P04803E7", "Q080"];
    text.fast_list(0x00, 0x00, "Carry-ons: position resets before a stop, in it, at rest and after it", &lines);
    for (before, stopping) in [(777, 100), (501, 250), (900, 899)] {
        text.read_after(before, 0);
        text.read_lines(&["Q0B", "Q09"]);
        text.ticks(stopping, 0);
        text.read_lines(&["Q0B", "q08"]);
        text.ticks(1_000, 0);
        text.read_lines(&["Q0C", "q08"]);
        text.ticks(200, 0);
        text.read_lines(&["Q4B"]);
    }
    text.read_after_each(&[5_000, 1_500], 0);
    text.lines(&["q08"]);
    text.end();
}

/// Paper 02, 3/14: the block of a W line comes in its tick, whatever is stopped and carried on meanwhile.
fn settled_inputs(text: &mut Text) {
    text.fast_list(0x0D, 0x0F, "Carry-ons: blocks of W lines across a stop and a carry-on, and beside its end", &FIVE);
    for before in [2_292, 2_293, 2_294] {
        text.lines(&["W0A5A5A5C", "Q080"]);
        text.ticks(300, 0);
        text.lines(&["Q09"]);
        text.ticks(before - 300, 0);
        text.read_lines(&["Q0C"]);
        text.read_after(2_499 - before - 1, 0x00_0010);
        for word in [0x20, 0x30, 0x40] {
            text.lent_tick(word, 0x78);
            text.readings();
        }
    }
    text.end();
}
