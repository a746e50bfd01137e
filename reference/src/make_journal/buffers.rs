//! Stored vectors, A: lengths of a buffer and places about an entry.

use super::entries::{spelled, LONGEST_ENTRY, PRINTED, SHORTEST};
use crate::journal::Entry;
use crate::text::Text;

/// Journal: an entry at each of the first two places in buffers of these lengths.
fn first_places(text: &mut Text, lengths: impl Iterator<Item = u8>, entry: &Entry) {
    for length in lengths {
        for place in 0..2 {
            text.append(length, place, entry);
        }
    }
}

/// Journal: every length of a buffer about an entry, at its first places.
pub(super) fn lengths_and_places(text: &mut Text) {
    text.heading("writer: the shortest entry, seven bytes, in buffers of 0 to 9 bytes at places 0 and 1");
    first_places(text, 0..=9, &SHORTEST);
    text.heading("writer: a longest entry, 23 bytes, in buffers of 22 to 25 bytes at places 0 and 1");
    first_places(text, 22..=25, &LONGEST_ENTRY);
}

/// Journal: an entry at places about the last one that has space for it, about the end and far past it.
fn last_places(text: &mut Text, length: u8, entry: &Entry) {
    let last = length - spelled(&[*entry]).len() as u8;
    for place in [last - 1, last, last + 1, length - 1, length, length + 1, 0x80, 0xFF] {
        text.append(length, place, entry);
    }
}

/// Journal: every place of a buffer, and places past its end.
pub(super) fn places_of_longer_buffers(text: &mut Text) {
    text.heading("writer: the printed session's entry, eight bytes, at every place of a buffer of 12 bytes");
    for place in 0..=13 {
        text.append(12, place, &PRINTED);
    }
    text.heading("writer: places about the last one, about the end and far past it in the longest buffer");
    last_places(text, 0x40, &SHORTEST);
    last_places(text, 0x40, &LONGEST_ENTRY);
}
