//! Stored lists: drawn lists of lines, bytes and ticks in any order.

use crate::text::Text;

/// A counter that draws numbers: the next is 1,664,525 times this one and 1,013,904,223, modulo 2 to the 32.
pub(crate) struct Draw(pub(crate) u32);

impl Draw {
    /// A number below the end.
    pub(crate) fn below(&mut self, end: u32) -> u32 {
        self.0 = self.0.wrapping_mul(1_664_525).wrapping_add(1_013_904_223);
        (self.0 >> 8) % end
    }

    /// One of the given.
    pub(crate) fn one<'a>(&mut self, of: &[&'a str]) -> &'a str {
        of[self.below(of.len() as u32) as usize]
    }
}

/// Lines: a drawn setting.
fn drawn_setting(draw: &mut Draw, second: char, end: &str) -> String {
    let sign = if draw.below(2) == 0 { 0x80000 } else { 0 };
    match draw.below(8) {
        0 => format!("P{second}0{:05X}{end}", sign | (5 + draw.below(8))),
        1 | 2 => format!("P{second}{}{:05X}{end}", 1 + draw.below(4), sign | draw.below(10)),
        3 => format!("P{second}8{:05X}{end}", 0x800 + draw.below(0x8000)),
        4 => format!("P{second}8{:05X}{end}", 1 + draw.below(0xF4300)),
        5 => format!("P{second}9{:05X}{end}", 0xC00 + draw.below(0x410)),
        _ => format!("P{second}{}{end}", draw.one(&["A00000", "A00001", "B00000", "B30000", "C00155", "C003FF"])),
    }
}

/// Lines: a drawn line that is often a command.
pub(crate) fn drawn_line(draw: &mut Draw) -> String {
    let second = if draw.below(6) == 0 { '4' } else { '0' };
    let end = if draw.below(4) == 0 { draw.one(&["A", "0", "F", "7", "a", "G"]) } else { "" };
    match draw.below(12) {
        0..=3 => drawn_setting(draw, second, end),
        4..=7 => format!("Q{second}8{}", draw.one(&["0", "0", "0", "0", "1", "4", "8", "8", "8", "B", "7"])),
        8 => format!("Q{second}{}", draw.one(&["9", "9", "9", "9", "A", "B", "B", "8", "D"])),
        9 => format!("Q{second}{}", draw.one(&["D00000", "E00000", "E03001", "E02155", "E01000", "D00002", "B"])),
        10 => format!("Q{second}{}", draw.one(&["0", "1", "2", "3", "4", "6", "E00000", "D00000", "B", "C"])),
        _ => draw.one(&["q08", "q0800000C", "W0", "WOOD", "q03", "W0ABCDEF", "Q0", "X", "q45", "Q0B"]).to_string(),
    }
}

/// Stops: a drawn input word, most often without a cause of a stop.
pub(crate) fn drawn_word(draw: &mut Draw) -> u32 {
    match draw.below(20) {
        0 => draw.below(0x100_0000),
        1 => 0x0100_0000 + draw.below(0x100_0000),
        2 | 3 => 1 << draw.below(14),
        4 => 0x3001,
        5..=9 => 0x000A,
        _ => 0,
    }
}

/// The list of demand 3: drawn lists of bytes and ticks in any order.
pub(super) fn drawn_lists(text: &mut Text) {
    for number in 1..=24u32 {
        let mut draw = Draw(number * 7_919);
        let switch = [0x00, 0x05, 0x09, 0x0E][number as usize % 4];
        text.fast_list(switch, switch, &format!("Drawn list {number}: lines, ticks and words in any order"), &[]);
        for _ in 0..200 {
            drawn_calls(text, &mut draw);
        }
        text.end();
    }
}

/// The list of demand 3: a few drawn lines, now and then a byte, and ticks.
fn drawn_calls(text: &mut Text, draw: &mut Draw) {
    let lines = draw.below(3);
    for _ in 0..lines {
        text.lines(&[&drawn_line(draw)]);
    }
    if draw.below(20) == 0 {
        text.byte(draw.below(256) as u8, draw.below(256) as u8);
    }
    let count = [1, 2, 60, 150, 330][draw.below(5) as usize];
    let word = drawn_word(draw);
    text.read_after(count, word);
}
