//! From words: lines of many lengths, odd bytes, and spaces where none belong.

use super::lines::Lines;

/// From words: lengths about 100, about 250, and far beyond.
const LENGTHS: [usize; 7] = [99, 100, 101, 249, 250, 251, 5_000];

/// From words: bytes that are no letter, digit or space.
const ODD_BYTES: [u8; 6] = [0, 9, 13, 127, 128, 255];

/// From words: a good form, made so long by zeros before its number.
fn padded(word: &str, number: &str, length: usize) -> String {
    format!("{word} {}{number}", "0".repeat(length - word.len() - 1 - number.len()))
}

/// From words: lines of many lengths. Below 100 characters leading zeros leave a form, from 100 on there is none.
pub(super) fn lengths(lines: &mut Lines) {
    for length in LENGTHS {
        lines.line(&padded("dwell", "20", length));
        lines.line(&padded("silent distance 3", "7 as B", length));
        lines.line(&"x".repeat(length));
    }
    for length in [99, 100, 5_000] {
        lines.line(&format!("speed {}", "5".repeat(length - 6)));
        lines.line(&"stop ".repeat(length)[..length]);
        lines.line(&" ".repeat(length));
        lines.bytes(&vec![255; length]);
    }
    lines.line(&format!("speed 1.{}", "0".repeat(91)));
    lines.line(&format!("speed 1.{}1", "0".repeat(90)));
    lines.line(&format!("speed 1.{}", "0".repeat(92)));
    lines.line(&format!("{} as A", "T".repeat(95)));
}

/// From words: odd bytes alone, before, inside and behind words.
pub(super) fn odd_bytes(lines: &mut Lines) {
    for byte in ODD_BYTES {
        let odd: &[u8] = &[byte];
        lines.bytes(odd);
        lines.bytes(&[b"stop", odd].concat());
        lines.bytes(&[odd, b"stop"].concat());
        lines.bytes(&[b"dwell", odd, b"20"].concat());
        lines.bytes(&[b"dwell 2", odd, b"0"].concat());
    }
    lines.bytes(b"speed 2500\xB725");
    lines.bytes(b"distance 2 \xE2\x88\x925000");
    lines.bytes(b"stop as \xC3\xA9");
    lines.bytes(b"s\xD4op");
    lines.bytes(b"\x13top");
}

/// From words: the empty line, leading and trailing spaces, two spaces in the place of one.
pub(super) fn spaces(lines: &mut Lines) {
    lines.each(&["", " ", "  ", " stop", "  stop", "stop ", "stop  ", " stop ", "start  0", "start 0 ", " start 0"]);
    lines.each(&["start 0  after dwell", "start 0 after  dwell", "start 0 after dwell ", "distance  2 -5000"]);
    lines.each(&["distance 2  -5000", "distance 2 -5000 ", " 1 -1 0 0 0", "speed  5", "speed 5 ", "low  1"]);
    lines.each(&["silent stop ", "silent  stop as A", "master  5 2 3 0 0", "opening ", " opening", "ticks  5"]);
}
