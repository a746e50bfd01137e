//! Stored vectors of the converter: lines in other forms.

use crate::text::Text;

/// Stored vectors: lines in other forms.
const OTHER_FORMS: [&str; 10] =
    ["C", "C 5", "C 53535", "C 53 00", "C 5353 ", "C  00", "C 5g", "C 0d", "c 535354205800", " C 535354205800"];

/// Stored vectors: what the program itself does not take; 49 bytes are too many, in a line of 100 characters.
pub(super) fn other_forms(text: &mut Text) {
    text.heading("lines in other forms: each prints a question mark; the last has 49 bytes");
    OTHER_FORMS.iter().for_each(|line| text.plain(line));
    text.command(format!("SPD X {:042}\0", 5).as_bytes());
}
