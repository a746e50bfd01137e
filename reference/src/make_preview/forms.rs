//! A dose on screen first: D lines in the form and in others, and lines that are no D lines.

use super::session::Session;

/// A dose on screen first: numbers with leading zeros, words of few digits and of either case.
const GOOD: [&str; 8] = [
    "D 0 300 0",
    "D 0 300 2000",
    "D 00 0300 00002000",
    "D 0 0 0",
    "D 000000000000000000000000 000000000000000000000207 0",
    "D 0 300 abcdef",
    "D 0 300 AbCdEf",
    "D 0 300 0000000000000000000000FFFFFF",
];

/// A dose on screen first: what has no form, though it begins with D.
const OTHERS: [&str; 42] = [
    "D",
    "D ",
    "D0",
    "DD 0 300 000000",
    "D 0",
    "D 0 ",
    "D 0 300",
    "D 0 300 ",
    "D 0 300 000000 ",
    "D 0 300 000000 0",
    "D  0 300 000000",
    "D 0  300 000000",
    "D 0 300  000000",
    "D  300 000000",
    "D 0  000000",
    "D 0300 000000",
    "D0 300 000000",
    "D\t0 300 000000",
    "D 0\t300 000000",
    "D 0 300\t000000",
    "D -1 300 000000",
    "D -0 300 000000",
    "D +0 300 000000",
    "D A 300 000000",
    "D 0 -1 000000",
    "D 0 +1 000000",
    "D 0 A 000000",
    "D 0 3e2 000000",
    "D 0 1,000 000000",
    "D 0 300.0 000000",
    "D 0 300 G",
    "D 0 300 00000G",
    "D 0 300 -1",
    "D 0 300 0x0",
    "D 0 300 000000\r",
    "D 0 300 000000\0",
    "D 0 300\r000000",
    "D 5 1000001 G",
    "D x 1000001 1000000",
    "D 0 300 000000 as A",
    "Distance 0 5",
    "D4",
];

/// A dose on screen first: what does not begin with D goes to the bench program, its own T lines among it.
const NO_D_LINES: [&str; 20] = [
    "d 0 300 000000",
    "d 0 3 0",
    " D 0 3 0",
    "Q06\rD 0 3 0",
    "\rD 0 3 0",
    "Q0D00010",
    "PD00001",
    "T 0 000000",
    "T 1 1000000",
    "TD 0 300 000000",
    "trial 0",
    "? trial 0, trial 0 6000, trial 0 6000 002000",
    "turned away by 25: more than 1,000,000 ticks",
    "start 0",
    "",
    "?",
    "q080000",
    "q08000007",
    "X4",
    "Q46",
];

/// A dose on screen first: a D line made so long by zeros before one of its numbers.
fn padded(before: &str, behind: &str, length: usize) -> String {
    format!("{before}{}{behind}", "0".repeat(length - before.len() - behind.len()))
}

/// A dose on screen first: good forms, up to 99 characters of them; from 100 on there is none.
pub(super) fn good_forms(session: &mut Session) {
    session.rest();
    session.each(&["P0000001"]);
    session.each(&GOOD);
    for length in [98, 99, 100, 101, 250, 5_000] {
        session.each(&[&padded("D ", "0 300 000000", length), &padded("D 0 ", "300 0", length)]);
        session.each(&[&padded("D 0 300 ", "1", length), &padded("D 5", " 300 000000", length)]);
    }
}

/// A dose on screen first: other forms; long lines of one character, and odd bytes.
pub(super) fn other_forms(session: &mut Session) {
    session.each(&OTHERS);
    for length in [99, 100, 5_000] {
        session.each(&[&"D".repeat(length), &padded("D 0 300 ", "G", length)]);
    }
    for byte in [0, 9, 13, 127, 128, 255] {
        session.bytes(&[b'D', byte]);
        session.bytes(&[b"D 0 3", &[byte][..], b"0 000000"].concat());
    }
    session.each(&["q08"]);
}

/// A dose on screen first: other lines, a long one among them, and a D line behind each of a few.
pub(super) fn other_lines(session: &mut Session) {
    session.each(&NO_D_LINES);
    session.each(&[&"P".repeat(100), "D 0 300 000000", &"T".repeat(100), "D 0 300 000000", "Q06\r", "D 0 300 000000"]);
    session.each(&["\r\r", "D 0 300 000000"]);
}
