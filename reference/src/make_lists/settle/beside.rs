//! Stored lists: a block in the tick that ends a move, in the tick whose stored start fails or begins, and the watch.

use super::{settled, WITHOUT};
use crate::text::Text;

/// Paper 02, 3/14: what else a tick with a block may answer. A failed start begins no move and no move runs in a dwell,
/// so that the number of one and an entry never share a tick.
pub(super) fn beside(text: &mut Text) {
    beside_entries(text);
    beside_failed_starts(text);
    beside_begun_starts(text);
    watch_after_the_block(text);
}

/// Journal: a move of one pulse takes 207 ticks; the last is the 2,499th, the 2,500th, the 2,501st after the W line.
fn beside_entries(text: &mut Text) {
    text.fast_list(
        0x00,
        0x03,
        "Settled inputs: a block in the tick that ends a move, and in the ticks before and after it",
        &["P0000001", "P0180001", "P0380000"],
    );
    for before in [WITHOUT - 207, WITHOUT - 206, WITHOUT - 205] {
        for line in ["W0", "W0ABCDEFB"] {
            text.lines(&[line]);
            text.ticks(before, 0);
            text.lines(&["Q080"]);
            text.read_after(WITHOUT - before - 1, 0x00_0010);
            for word in [0x20, 0x30, 0x40] {
                text.lent_tick(word, 0x78);
                text.readings();
            }
        }
    }
    text.heading("a move stopped in its first tick, by order: one tick, cause 1");
    text.lines(&["W05A5A5AC"]);
    text.ticks(WITHOUT, 0);
    text.lines(&["Q080", "Q09"]);
    text.lent_tick(0x567, 0x78);
    text.end();
}

/// Turned away, 12 to 17: the setting line, the distance line and the word with which a stored start fails.
const FAILING: [(&str, &str, u32); 6] = [
    ("Q0E01000", "P0000003", 0x1000),
    ("Q0E02000", "P0000003", 0x2000),
    ("Q0E00000", "P0100004", 0),
    ("Q0E00000", "P0000000", 0),
    ("Q0E00001", "P0000003", 0x0001),
    ("Q0E00000", "P007FFFF", 0x345678),
];

/// Turned away, 12 to 17: a stored start fails in the 2,500th tick after a W line, and in the one before.
fn beside_failed_starts(text: &mut Text) {
    for (setting, distance, word) in FAILING {
        let words =
            format!("Settled inputs: a block and the number of a stored start in one tick: {setting}, {distance}");
        text.fast_list(0x04, 0x04, &words, &["P0A00001"]);
        for (line, before) in [("W0A5A5A5", 2_249), ("W05A5A5A4", 2_249), ("W0", 2_248), ("W4", 2_249)] {
            text.lines(&["Q0E00000", "Q0A", "Q0B", "P0000003", "P0100000", "Q080"]);
            text.ticks(1_000, 0);
            text.lines(&[line]);
            text.ticks(before, 0);
            text.stop_into_dwell("Q080", 0);
            text.lines(&[setting, distance, "Q088"]);
            text.read_after(249, 0);
            text.lent_tick(word, 0x78);
            text.readings();
            text.lent_tick(word, 0x78);
            text.ticks(1, 0);
        }
        text.end();
    }
}

/// Lines: a stored start begins in the 2,500th tick after a W line; the words show its directions and the outputs.
fn beside_begun_starts(text: &mut Text) {
    text.fast_list(
        0x09,
        0x09,
        "Settled inputs: a block in the tick in which a stored start begins, or in the dwell before it",
        &["P0A00001", "P0080003", "P0100002", "P0480001"],
    );
    for (line, before) in [("W0A00000", 2_249), ("W0500000D", 2_250), ("W0F00000E", 2_000), ("W4", 2_249)] {
        text.lines(&[line]);
        text.ticks(before, 0);
        text.lines_in_dwell(0, &["Q088"]);
        text.read_after(249, 0);
        for word in [0x987654, 0x876543] {
            text.lent_tick(word, 0x78);
            text.readings();
        }
        text.read_after(1_000, 0x765432);
        text.lines(&["Q0B"]);
    }
    text.end();
}

/// Stops: a W line zeroes the watch count, its block does not; the outputs are cleared long after the block.
fn watch_after_the_block(text: &mut Text) {
    text.list(
        0x02,
        0x02,
        "Settled inputs: the watch clears the outputs 1,000,000 ticks after the W line, not its block",
    );
    text.lines(&["P0B2", "Q06"]);
    text.ticks(100, 0);
    text.lines(&["W0FFFFFF3"]);
    settled(text, 0x00_FF00);
    text.read_after_each(&[997_498, 1, 1], 0x00_0001);
    text.heading("outputs set anew at a full count stay; a query then has its block and sets nothing");
    text.lines(&["W0A5A5A54"]);
    settled(text, 0x00_00FF);
    text.lines(&["W0"]);
    settled(text, 0xFF_0000);
    text.end();
}
