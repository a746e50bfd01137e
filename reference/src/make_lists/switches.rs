//! Stored lists: every switch, and the output lines of each group of switches.

use super::list_lines::{FAST, ONE_PULSE};
use crate::text::Text;

/// Turned away, 1: every switch, with moves, polarity, general outputs, readings.
pub(super) fn every_switch(text: &mut Text) {
    text.list(0x00, 0xFF, "Every switch: distances of both signs, polarity, general outputs, two short moves");
    text.readings();
    text.ticks(2, 0);
    text.lines(&FAST);
    text.lines(&["P0000014", "P0180013", "P0280007", "P030000D", "P0480000", "P0C002A5", "W05A5A5A"]);
    text.read_after(3, 0x123456);
    text.read_lines(&["Q080"]);
    text.read_after(200, 0);
    text.lines(&["q08", "Q06", "Q01", "q01"]);
    text.read_after(400, 0);
    text.lines(&["Q02", "W0C3C3C3"]);
    text.read_after(400, 0xFFFFFF);
    text.lines(&["Q06", "P0C00F5A", "P0480003", "P0000002", "P0100000", "P0280000", "P0300001", "Q084"]);
    text.read_after(400, 0xABCDEF);
    text.lines(&["q08000007", "W0", "Q05", "X", "P4C00000", "W4FFFFFF"]);
    text.ticks(1, 0xFFFFFF);
    text.ticks(1, 0x0100_0000);
    text.end();
}

/// Lines of output: the four groups of switches.
pub(super) fn polarities_of_all_groups(text: &mut Text) {
    for (first, last) in [(0x0, 0x3), (0x4, 0x7), (0x8, 0xB), (0xD, 0xF)] {
        polarities(text, first, last);
    }
}

/// Lines of output: one group of switches with several polarities and both directions.
fn polarities(text: &mut Text, first: u8, last: u8) {
    let words = format!("Switches {first:X} to {last:X}: polarities, single pulses of both directions");
    let lines = ["P0000001", "P0180001", "P0280000", "P0300001", "P0480001", "W05A5A5A"];
    text.fast_list(first, last, &words, &lines);
    text.read_after(1, 0);
    single_pulses(text, "Q080", [0x000]);
    single_pulses(text, "Q080", (0..12).map(|bit| 1 << bit));
    text.lines(&["P0080001", "P0100001", "P0200001", "P0380000", "P0400001", "W0A5A5A5"]);
    single_pulses(text, "Q082", [0x000, 0x155, 0x2AA, 0x0F3, 0x30C, 0x3FF, 0xC00, 0xFFF]);
    text.lines(&["W0000000", "P0C00000"]);
    text.ticks(1, 0);
    text.lines(&["W0FFFFFF"]);
    text.ticks(1, 0);
    text.end();
}

/// Lines of output: a move of single pulses with each of these polarities.
fn single_pulses(text: &mut Text, start: &str, polarities: impl IntoIterator<Item = u32>) {
    for polarity in polarities {
        text.lines(&[&format!("P0C00{polarity:03X}"), start]);
        text.read_after(ONE_PULSE, 0);
    }
}
