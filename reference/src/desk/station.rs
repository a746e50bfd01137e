//! From words, rule 2, and "Lines of the other bench make": commands of an MD5230D station, typed without their 00.

use super::nearest::first_word;
use super::Told;
use crate::host::line_text;
use crate::station::{convert, NULL};

/// Source document 001: the letters of a name.
const LETTERS: usize = 3;

/// From words, rule 2: the first word is three capitals A-Z.
pub(super) fn begins_as_command(line: &[u8]) -> bool {
    let first = first_word(line);
    first.len() == LETTERS && first.iter().all(u8::is_ascii_uppercase)
}

/// Lines of the other bench make: the lines of a command, each on a line of its own; or 27, 28 or 29.
pub(super) fn told(line: &[u8]) -> Told {
    let converted = convert(&[line, &[NULL]].concat());
    if converted.number != 0 {
        return Err(converted.number);
    }
    let lines: Result<Vec<String>, u8> = converted.used().iter().map(line_text).collect();
    Ok(lines?.join("\n"))
}
