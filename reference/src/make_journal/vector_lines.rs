//! Stored vectors of the journal: the lines of the text, letter by letter.

use crate::fields::bytes_text;
use crate::journal::Entry;
use crate::text::Text;

/// Stored vectors, A: a travel as sign and eight digits.
fn travel_field(travel: i32) -> String {
    let sign = if travel < 0 { '-' } else { '+' };
    format!("{sign}{:08X}", travel.unsigned_abs())
}

impl Text {
    /// Stored vectors, A: a line of the journal's writer.
    pub(super) fn append(&mut self, length: u8, place: u8, entry: &Entry) {
        let travels = entry.travels.map(travel_field).join(" ");
        self.plain(&format!("A {length:02X} {place:02X} {:016X} {:02X} {travels}", entry.ticks, entry.cause));
    }

    /// Stored vectors, J: a line of the journal's reader.
    pub(super) fn journal(&mut self, place: u8, bytes: &[u8]) {
        self.plain(&format!("J {place:02X} {}", bytes_text(bytes)));
    }
}
