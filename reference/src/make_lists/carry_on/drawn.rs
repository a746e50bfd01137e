//! Stored lists: drawn lists in which stops and carry-ons come often.

use crate::make_lists::drawn::{drawn_line, drawn_word, Draw};
use crate::text::Text;

/// The list of demand 3: drawn lists with carry-ons among moves, dwells and stops of every cause.
pub(super) fn drawn_lists(text: &mut Text) {
    for number in 1..=8u32 {
        let mut draw = Draw(number * 611_953);
        let switch = [0x03, 0x07, 0x08, 0x0D][number as usize % 4];
        text.fast_list(switch, switch, &format!("Drawn list {number} of stops and carry-ons"), &[]);
        text.lines(&["P000000B", "P0180007", "P0200003", "P0480009"]);
        for _ in 0..160 {
            drawn_calls(text, &mut draw);
        }
        text.end();
    }
}

/// Lines: a start, an order 9 or a carry-on, most often; now and then any other line.
fn drawn_step(draw: &mut Draw) -> String {
    match draw.below(9) {
        0 => drawn_line(draw),
        1 | 2 => draw.one(&["Q080", "Q080", "Q088", "Q480", "Q0E00000", "Q0D00000", "Q0B", "P000000B"]).to_string(),
        3 | 4 => draw.one(&["Q09", "Q09", "Q49", "Q0900000F"]).to_string(),
        5..=7 => draw.one(&["Q0C", "Q0C", "Q0C", "Q0c12", "Q4C", "Q0CABCDE7", "Q0B"]).to_string(),
        _ => draw.one(&["P0A00000", "P0A00001", "P0900FFF", "P0900C00", "P08F4240", "P0C00155"]).to_string(),
    }
}

/// The list of demand 3: one step or two, and ticks.
fn drawn_calls(text: &mut Text, draw: &mut Draw) {
    for _ in 0..=draw.below(2) {
        text.lines(&[&drawn_step(draw)]);
    }
    if draw.below(16) == 0 {
        text.lent_tick(drawn_word(draw), [0x77, 0x78, 0xFF][draw.below(3) as usize]);
    }
    let count = [1, 2, 100, 150, 250, 250][draw.below(6) as usize];
    text.read_after(count, drawn_word(draw));
}
