//! Stored vectors, J: journals read entry by entry, at every place, and cut short at every byte.

use super::entries::{spelled, LONGEST_ENTRY, PRINTED, SHORTEST};
use crate::text::Text;

/// Journal: three entries, read at every place of them, at their end and past it.
pub(super) fn every_place(text: &mut Text) {
    let bytes = spelled(&[PRINTED, SHORTEST, LONGEST_ENTRY]);
    text.heading("reader: three entries, at places 0, 8 and 15, then the end; every place between and past it");
    for place in 0..=bytes.len() as u8 + 1 {
        text.journal(place, &bytes);
    }
}

/// Journal: bytes that are cut short; no byte left before an entry is the journal's end.
pub(super) fn every_cut(text: &mut Text) {
    text.heading("reader: the printed session's entry, then a longest one cut short at every byte");
    let bytes = spelled(&[PRINTED, LONGEST_ENTRY]);
    for end in 8..bytes.len() {
        text.journal(8, &bytes[..end]);
    }
}

/// Journal: the journal's end, journals of forty bytes, and a wrong entry among good ones.
pub(super) fn odd_journals(text: &mut Text) {
    text.heading("reader: no byte at all");
    for place in [0, 1, 0xFF] {
        text.journal(place, &[]);
    }
    text.heading("reader: forty bytes, five entries and one that is cut short; then entries end with the fortieth");
    let bytes = [spelled(&[SHORTEST; 5]), vec![0x80; 5]].concat();
    let whole = spelled(&[PRINTED; 5]);
    for place in [0, 7, 14, 21, 28, 35, 39, 40, 41] {
        text.journal(place, &bytes);
    }
    for place in [0, 8, 16, 24, 32, 40, 0x80, 0xFF] {
        text.journal(place, &whole);
    }
    text.heading("reader: a wrong entry between two good ones");
    let wrong = [spelled(&[PRINTED]), vec![0x01, 0x02, 0, 0, 0, 0, 0], spelled(&[SHORTEST])].concat();
    for place in [0, 8, 15, 22] {
        text.journal(place, &wrong);
    }
}
