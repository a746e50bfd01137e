//! Stored lists: blocks of W lines in the answers of ticks (paper 02, 3/14), and W lines that replace each other.

mod beside;
mod drawn;
mod lent;
mod under_way;

use crate::text::{Text, IDENTIFICATIONS};

/// Paper 02, 3/14: the accepted ticks after a W line that have no block; the next one has it.
pub(super) const WITHOUT: u32 = 2_499;

/// Paper 02, 3/14: what W lines set and answer, and what becomes of a block that is still to come.
pub(super) fn settle(text: &mut Text) {
    every_identification(text);
    outputs_at_once(text);
    that_very_tick(text);
    replaced(text);
    turned_away_meanwhile(text);
    other_lines_meanwhile(text);
    everything_between(text);
    lent::lent(text);
    beside::beside(text);
    under_way::under_way(text);
    drawn::drawn_lists(text);
}

/// Paper 02, 3/14: 2,499 ticks without a block, the one that has it and one after it, each with a word of its own.
fn settled(text: &mut Text, word: u32) {
    text.ticks(WITHOUT, word);
    text.ticks(1, !word & 0xFF_FFFF);
    text.ticks(1, word ^ 0xF0_F0F0);
}

/// Replies: the switch digit, that tick's inputs and the very identification.
fn every_identification(text: &mut Text) {
    let words = "Settled inputs: a query, outputs without an identification and with each one, for every switch";
    text.list(0x00, 0x10, words);
    for (place, line) in ["W0", "W0000000", "W0FFFFFF", "W0abcdef"].iter().enumerate() {
        text.lines(&[line]);
        settled(text, 0x123456 + place as u32);
    }
    for (place, id) in (0u32..).zip(IDENTIFICATIONS.chars()) {
        text.lines(&[&format!("W0{:06X}{id}", (0x11_0F0F * place) & 0xFF_FFFF)]);
        settled(text, (0xFE_DCBA ^ (0x10_1010 * place)) & 0xFF_FFFF);
    }
    text.end();
}

/// Paper 02, 3/14: a W line sets its outputs immediately; a query sets none, nor does one that is turned away.
fn outputs_at_once(text: &mut Text) {
    text.list(0x00, 0x10, "Settled inputs: outputs show in the next tick, replied and silent; a query sets none");
    text.lines(&["P0080001", "P0100001", "P0C00155", "Q080", "Q09"]);
    for line in ["W0FFFFFF", "W0", "W4", "W0000000", "W4A5A5A5", "W05A5A5", "W05A5A5Ag", "W0C3C3C3F", "W45a5a5aG"] {
        text.lines(&[line]);
        text.lent_tick(0x00_00FF, 0x78);
        text.ticks(2, 0);
    }
    text.heading("the block of the last one that was taken, W0C3C3C3F, to whose 2,500 the last six ticks count");
    text.ticks(WITHOUT - 6, 0x111111);
    text.lent_tick(0x77_7777, 0x78);
    text.ticks(1, 0x222222);
    text.end();
}

/// Paper 02, 3/14: the 2,500th tick has the block, none before and none after; ticks within the line do not count.
fn that_very_tick(text: &mut Text) {
    text.list(0x05, 0x09, "Settled inputs: in the 2,500th tick, not the 2,499th nor the 2,501st, and only once");
    for line in ["W0", "W0A5A5A5", "W05A5A5A0"] {
        text.bytes(line.as_bytes(), 120);
        text.ticks(2, 0x00_0001);
        text.bytes(b"\r", 120);
        text.ticks(WITHOUT - 2, 0x00_0002);
        for word in 0x10..0x16 {
            text.lent_tick(word, 0x78);
            text.readings();
        }
    }
    text.heading("no second block, 2,500 and 5,000 ticks after the first");
    text.read_after_each(&[WITHOUT - 3, 1, 1, WITHOUT, 1, 1], 0xABCDEF);
    text.end();
}

/// Paper 02, 3/14: each line, the ticks after it, and then the block of the last one, if it is not silent.
const REPLACED: [&[(&str, u32)]; 9] = [
    &[("W0ABCDEF1", 0), ("W0123456", 2_500)],
    &[("W0ABCDEF2", WITHOUT), ("W0", 2_500)],
    &[("W0", 1), ("W05555553", WITHOUT), ("W0AAAAAA4", 2_500)],
    &[("W0AAAAAA5", 1_250), ("W0AAAAAA5", 2_500)],
    &[("W0", 0), ("W4", 5_001)],
    &[("W0ABCDEF6", WITHOUT), ("W4543210", 5_001)],
    &[("W45432107", 2_500), ("W4", 2_500), ("W0", 2_500)],
    &[("W4", 0), ("W0", 0), ("W0F0F0F08", 2_500), ("W4", 1)],
    &[("W0", 1_000), ("W4000000", 1_000), ("W0", 1_000), ("W4FFFFFF9", 1_500), ("W0", 2_500)],
];

/// Paper 02, 3/14: the earlier one gets no block.
fn replaced(text: &mut Text) {
    text.list(
        0x00,
        0x03,
        "Settled inputs: a W line takes the place of an earlier one; a silent one too, and gives none",
    );
    for (round, lines) in REPLACED.iter().enumerate() {
        for (line, ticks) in lines.iter() {
            text.lines(&[line]);
            text.ticks(*ticks, 0x01_0101 * (round as u32 + 1));
        }
        text.read_after(1, 0x808080);
    }
    text.end();
}

/// Turned away, 4, 6, 7 and 9: a refused W line changes nothing of a block that is still to come.
fn turned_away_meanwhile(text: &mut Text) {
    text.list(0x0A, 0x0A, "Settled inputs: W lines turned away by 4, 6, 7 and 9 meanwhile, replied and silent");
    for wrong in ["W", "W000000012", "W1", "W0G", "W0123456g", "W01", "W012345", "W0123456G"] {
        for line in ["W0ABCDEFD", "W4ABCDEFD"] {
            text.lines(&[line]);
            text.ticks(WITHOUT, 0x654321);
            text.replied_and_silent(wrong);
            text.read_runs(&[(1, 0x765432), (1, 0x876543)]);
        }
    }
    text.end();
}

/// Paper 02, 3/14: only an accepted W takes the place; lines of other letters, taken or turned away, do not.
fn other_lines_meanwhile(text: &mut Text) {
    text.list(
        0x0F,
        0x0F,
        "Settled inputs: lines of every other kind meanwhile, taken and turned away, and a half line",
    );
    let taken = ["P0000001", "P08F4240", "P0900FFF", "P0A00000", "P0B1", "P0C003FF", "Q00", "Q06", "Q09", "Q0A", "Q0B"];
    let others =
        ["Q0D00000", "Q0E00000", "q00", "q48", "P0800000", "P0900000", "Q081", "Q085", "w0", "X0", "X4", "Q05"];
    for line in taken.iter().chain(&others) {
        text.lines(&["W0A5A5A5E"]);
        text.ticks(WITHOUT, 0x00_0000);
        text.lines(&[line]);
        text.ticks(1, 0x13579B);
    }
    text.heading("the first characters of a W line change nothing before its 0D, and 0D in 119 bytes is not taken");
    text.lines(&["W0F0F0F01"]);
    text.ticks(WITHOUT, 0x00_0000);
    text.bytes(b"W00F0F0F2", 120);
    text.bytes(b"\r", 119);
    text.ticks(2, 0x2468AC);
    text.bytes(b"\r", 120);
    text.ticks(WITHOUT, 0x00_0000);
    text.ticks(2, 0x3579BD);
    text.end();
}

/// Replies: the R block of q 8 keeps the last tick's inputs, at once, and leaves the block of a W line as it is.
fn everything_between(text: &mut Text) {
    text.list(
        0x0D,
        0x0E,
        "Settled inputs: everything read before, between and after has the last tick's inputs at once",
    );
    text.lines(&["q08", "W0ABCDEF7", "q08000008"]);
    for word in [0x000001, 0x800000, 0xFFFFFF] {
        text.ticks(833, word);
        text.lines(&["q08", "q08000009", "q48"]);
    }
    text.heading("that was the 2,499th; q 8 with the inputs before the block, of its own tick, and after it");
    text.lines(&["q0800000A"]);
    text.ticks(1, 0x345678);
    text.lines(&["q0800000B", "q08"]);
    text.ticks(1, 0x456789);
    text.lines(&["q0800000C"]);
    text.end();
}
