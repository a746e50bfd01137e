//! Identifications in the lines for the host end: of commands, and of blocks.

use crate::identification::AtHost;
use crate::program::reference_output;

/// The byte that two digits spell.
fn byte_of(digits: &[u8]) -> Option<u8> {
    u8::from_str_radix(std::str::from_utf8(digits).ok()?, 16).ok()
}

/// The bytes behind the front of a line that has the form.
pub fn bytes_of(line: &[u8], front: &[u8]) -> Option<Vec<u8>> {
    line.strip_prefix(front)?.chunks(2).map(byte_of).collect()
}

/// Whether a command without a line would have one with a numeral as identification, which it has.
fn is_none_for_identification(line: &[u8]) -> bool {
    let Some((front, identification)) = line.split_last_chunk::<2>() else { return false };
    let other = [front, b"30"].concat();
    identification != b"--" && reference_output(reference::vectors::run, &other).starts_with(b"00")
}

/// A line and its answer.
pub fn count(seen: &mut AtHost, line: &[u8], answer: &str) {
    let number = answer.split(' ').next().unwrap_or_default();
    match (line, number) {
        ([b'W', .., high, low], "00") => byte_of(&[*high, *low]).into_iter().for_each(|byte| seen.written(byte)),
        ([b'W', ..], "19") if is_none_for_identification(line) => seen.no_line(),
        ([b'B', ..], "00" | "20") => bytes_of(line, b"B ").into_iter().for_each(|bytes| seen.given(&bytes)),
        _ => {}
    }
}
