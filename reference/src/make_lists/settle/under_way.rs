//! Stored lists: blocks of W lines while a move runs, is slowed, is stopped by its inputs or begins.

use super::WITHOUT;
use crate::text::Text;

/// Shares: a crooked move of master distance 4,000 with 1,333, minus 2,667 and 1.
const CROOKED: [&str; 4] = ["P0000FA0", "P0100535", "P0280A6B", "P0300001"];

/// Paper 02, 3/14: W lines are taken under way, and moves take nothing of them.
pub(super) fn under_way(text: &mut Text) {
    across_a_move(text);
    at_every_tick(text);
    beside_stops(text);
}

/// Paper 02, 3/14: a block before, within and after a move, and across its start and its end.
fn across_a_move(text: &mut Text) {
    for switch in [0x01, 0x06, 0x0A, 0x0E] {
        text.fast_list(
            switch,
            switch,
            "Settled inputs: a move runs across; outputs and speed change under way",
            &CROOKED,
        );
        text.lines(&["W0A5A5A50"]);
        text.ticks(1_200, 0x00_0000);
        text.read_lines(&["Q080"]);
        text.read_runs(&[(WITHOUT - 1_200, 0x00_0000), (1, 0xABCDEF), (1, 0)]);
        text.lines(&["W05A5A5A1", "P0838400", "P0000001"]);
        text.read_runs(&[(1_000, 0x00_0000), (WITHOUT - 1_000, 0x00_0001), (1, 0xBCDEFA), (1, 0)]);
        text.lines(&["W0C3C3C3", "P08F4240"]);
        text.read_runs(&[(WITHOUT, 0x00_0002), (1, 0xCDEFAB), (1, 0)]);
        text.lines(&["W0"]);
        text.read_runs(&[(WITHOUT, 0x00_0003), (1, 0xDEFABC), (1, 0)]);
        text.lines(&["W03C3C3C2", "Q09"]);
        text.read_runs(&[(WITHOUT, 0x00_0004), (1, 0xEFABCD), (1, 0)]);
        text.lines(&["q08"]);
        text.end();
    }
}

/// Ramp: one pulse in every tick; each of the ticks about the block has its words and its whole buffer seen.
fn at_every_tick(text: &mut Text) {
    let lines = ["P007FFFF", "P0155555", "P02D5555", "P0480001", "Q080"];
    text.fast_list(0x00, 0x01, "Settled inputs: pulse by pulse about the block at the greatest speed", &lines);
    text.read_after(20_000, 0);
    for line in ["W0FFFFFF9", "W0000000", "W0"] {
        text.lines(&[line]);
        text.ticks(WITHOUT - 4, 0);
        for word in 0x80..0x90 {
            text.lent_tick(word, 0x78);
        }
        text.readings();
    }
    text.end();
}

/// Stops: the inputs that the block tells are those that begin the stop in that tick.
fn beside_stops(text: &mut Text) {
    text.fast_list(
        0x07,
        0x07,
        "Settled inputs: sensor, emergency and a limit begin a stop in the tick of the block",
        &["P0000FA0", "P0180FA0", "Q0E03005"],
    );
    for word in [0x2000, 0x1000, 0x0001, 0x3005] {
        text.lines(&["W0123456A", "Q080"]);
        text.read_runs(&[(WITHOUT, 0), (1, word), (1, 0)]);
        text.lines(&["W0"]);
        text.read_runs(&[(WITHOUT, 0), (1, word), (1, 0)]);
        text.read_lines(&["Q06", "Q0B", "Q06"]);
    }
    text.end();
}
