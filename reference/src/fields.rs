//! Stored lists and vectors: lines and their fields, and what a line in any form prints.

use crate::digit::{capital_digit_value, digit_character, number_written};
use crate::streams::each_line;
use std::io::{self, BufRead, Write};

/// Stored lists and vectors: the most characters of a line.
pub const MOST_LINE_CHARACTERS: usize = 100;

/// Stored lists and vectors: what a line in any other form prints.
pub const OTHER_FORM: &str = "?\n";

/// Stored lists and vectors: a field of exactly so many digits in capitals, at most 16.
pub fn digits(field: &[u8], count: usize) -> Option<u64> {
    if field.len() != count {
        return None;
    }
    number_written(field, capital_digit_value)
}

/// Stored lists and vectors: a field `hh`.
pub fn two_digits(field: &[u8]) -> Option<u8> {
    digits(field, 2).map(|value| value as u8)
}

/// Stored lists and vectors: a field `hhhhhhhh`.
pub fn eight_digits(field: &[u8]) -> Option<u32> {
    digits(field, 8).map(|value| value as u32)
}

/// Stored vectors: a field that is one digit, 0 or 1.
pub fn zero_or_one(field: &[u8]) -> Option<bool> {
    match field {
        b"0" => Some(false),
        b"1" => Some(true),
        _ => None,
    }
}

/// Stored vectors: bytes written as two digits each without spaces.
pub fn bytes_of(field: &[u8]) -> Option<Vec<u8>> {
    field.chunks(2).map(two_digits).collect()
}

/// Stored vectors: bytes as two digits each without spaces.
pub fn bytes_text(bytes: &[u8]) -> String {
    let mut text = String::new();
    for &byte in bytes {
        text.push(digit_character(byte >> 4) as char);
        text.push(digit_character(byte & 0xF) as char);
    }
    text
}

/// Stored lists and vectors, and the bench's `T`: a letter and fields with one space between two of them.
pub fn split(line: &[u8]) -> Vec<&[u8]> {
    line.split(|&character| character == b' ').collect()
}

/// Stored lists and vectors: a line that is empty or begins with `#` prints nothing.
fn prints_nothing(line: &[u8]) -> bool {
    line.is_empty() || line[0] == b'#'
}

/// Stored lists and vectors: what a line prints; `obey` answers `None` for a line in any other form.
pub fn printed(line: &[u8], obey: impl FnOnce(&[u8]) -> Option<String>) -> String {
    if line.len() > MOST_LINE_CHARACTERS {
        return OTHER_FORM.to_string();
    }
    if prints_nothing(line) {
        return String::new();
    }
    obey(line).unwrap_or_else(|| OTHER_FORM.to_string())
}

/// Stored lists and vectors: every line, ended by a line feed, which the last may lack, prints its answer.
pub fn run_lines<R: BufRead, W: Write>(
    input: R,
    output: &mut W,
    mut answer: impl FnMut(&[u8]) -> String,
) -> io::Result<()> {
    each_line(input, |line| output.write_all(answer(line).as_bytes()))?;
    output.flush()
}
