//! Stored lists: drawn lists of W lines, ticks and ticks with their buffers in any order.

use super::WITHOUT;
use crate::make_lists::drawn::{drawn_line, drawn_word, Draw};
use crate::text::Text;

/// The list of demand 3: W lines often, so that blocks come and are replaced among moves, dwells and stops.
pub(super) fn drawn_lists(text: &mut Text) {
    for number in 1..=8u32 {
        let mut draw = Draw(number * 104_729);
        let switch = [0x00, 0x06, 0x0B, 0x0F][number as usize % 4];
        text.fast_list(switch, switch, &format!("Drawn list {number} of W lines and of ticks with their buffers"), &[]);
        for _ in 0..110 {
            drawn_calls(text, &mut draw);
        }
        text.end();
    }
}

/// Lines: a drawn W line, now and then silent or turned away.
fn drawn_w(draw: &mut Draw) -> String {
    let second = if draw.below(8) == 0 { '4' } else { '0' };
    let digits = draw.one(&["", "", "123456", "FEDCBA", "a5A5a5", "5A5A5"]);
    let end = if digits.len() == 6 { draw.one(&["", "0", "7", "A", "F", "f"]) } else { "" };
    format!("W{second}{digits}{end}")
}

/// The list of demand 3: a line, a few ticks with buffers of any length, and many ticks.
fn drawn_calls(text: &mut Text, draw: &mut Draw) {
    match draw.below(4) {
        0 => text.lines(&[&drawn_w(draw)]),
        1 | 2 => text.lines(&[&drawn_line(draw)]),
        _ => {}
    }
    for _ in 0..draw.below(3) {
        let lent = [0x00, 0x77, 0x78, 0x79, draw.below(256) as u8][draw.below(5) as usize];
        text.lent_tick(drawn_word(draw), lent);
    }
    let count = [1, 2, 200, 1_250, WITHOUT - 1, WITHOUT][draw.below(6) as usize];
    text.read_after(count, drawn_word(draw));
}
