//! Stored lists: shares across stops and carry-ons, in crooked moves and in the longest ones.

use super::stopped;
use crate::make_lists::list_lines::distance_line;
use crate::text::Text;

/// Shares: switch, master, distances below 0 for minus, and the ticks before each order 9. The longest have 524,287.
const MOVES: [(u8, u32, [i32; 5], &[u32]); 7] = [
    (0x00, 0, [5, 2, -3, 0, 0], &[156, 0, 110, 156, 111]),
    (0x01, 4, [-1, 1, 2, -3, 4], &[156, 111, 156]),
    (0x05, 0, [1_000, 333, 667, 1, -999], &[777, 1_501, 155, 2_003, 400, 300]),
    (0x09, 3, [7, 28, -15, 29, -1], &[200, 200, 200, 200, 156]),
    (0x0A, 0, [524_287, 100_000, -99_999, -524_286, 1], &[3_000, 100_001, 0, 77_777, 12_345]),
    (0x0E, 2, [262_143, -262_144, 524_287, 524_285, -2], &[1, 260_000, 200, 30_001]),
    (0x0B, 1, [-174_762, -524_286, 349_524, 262_143, 131_071], &[131_072, 65_536, 999]),
];

/// Paper 02, 6/14: the share rule holds across any number of stops.
pub(super) fn shares(text: &mut Text) {
    for (switch, master, distances, stops) in MOVES {
        let longest = distances[master as usize].unsigned_abs();
        let words = format!("Carry-ons: shares of a master of {longest} across {} stops to its end", stops.len());
        text.fast_list(switch, switch, &words, &[]);
        for (axis, &distance) in (0..).zip(&distances) {
            text.lines(&[&distance_line(axis, distance < 0, distance.unsigned_abs())]);
        }
        text.lines(&[&format!("Q08{master}")]);
        for &before in stops {
            stopped(text, before, before.min(12_300) + 1);
            text.lines(&["q08", "Q0C"]);
        }
        to_the_end(text, longest);
        text.lines(&["q08"]);
        text.end();
    }
    pulse_by_pulse(text);
}

/// Ramp: enough ticks to the end: 13,000 more than one for each pulse that may be open.
fn to_the_end(text: &mut Text, longest: u32) {
    text.read_after_each(&[207, 1_000, 4_000], 0);
    for part in [longest / 2, longest - longest / 2, 8_000] {
        text.read_after(part, 0);
    }
}

/// Shares: a move of 23 with 22, 16, minus 7 and 1 that stops after every pulse and is carried on.
fn pulse_by_pulse(text: &mut Text) {
    let lines = ["P0000017", "P0100016", "P0200010", "P0380007", "P0400001", "Q080"];
    text.fast_list(0x00, 0x00, "Carry-ons: a move of 23 pulses, stopped after every one of them", &lines);
    for _ in 0..22 {
        stopped(text, 156, 157);
        text.lines(&["q08", "Q0C"]);
    }
    text.read_after_each(&[206, 1, 1], 0);
    text.end();
}
