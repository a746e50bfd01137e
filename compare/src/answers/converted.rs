//! Commands in the lines for the host end: those that were converted, and those that a number turned away.

use super::identified::bytes_of;
use crate::station::Commands;
use reference::station::NULL;

/// The command of a `C` line that has the form, without its 00.
fn command_of(line: &[u8]) -> Option<Vec<u8>> {
    let mut bytes = bytes_of(line, b"C ")?;
    if bytes.last() == Some(&NULL) {
        bytes.pop();
    }
    Some(bytes)
}

/// A line and its answer.
pub fn count(seen: &mut Commands, line: &[u8], answer: &str) {
    let Some(command) = command_of(line) else { return };
    let fields: Vec<&str> = answer.split(' ').collect();
    match fields.as_slice() {
        ["00", lines, ..] => seen.converted(&command, lines.parse().unwrap_or(0)),
        [number @ ("27" | "28" | "29"), ..] => seen.turned_away(&command, number.parse().unwrap_or(0)),
        _ => {}
    }
}
