//! Stored vectors, A and J: the journal's writer and its reader.

use super::{answer_text, written_text, BYTE_BEFORE, LONGEST_LINE_BUFFER};
use crate::fields::{bytes_of, digits, eight_digits, two_digits};
use crate::journal::{append, read, Entry};

/// Stored vectors, J: the most bytes of a journal.
pub const MOST_JOURNAL_BYTES: usize = 40;

/// Stored vectors, A: a travel as `+` or `-` and eight digits up to 7FFFFFFF.
fn travel_field(field: &[u8]) -> Option<i32> {
    let (sign, magnitude) = field.split_first()?;
    let magnitude = i32::try_from(eight_digits(magnitude)?).ok()?;
    match sign {
        b'+' => Some(magnitude),
        b'-' => Some(-magnitude),
        _ => None,
    }
}

/// Stored vectors, A: the entry of ticks, cause and the five travels.
fn entry_of_fields(fields: &[&[u8]]) -> Option<Entry> {
    let [ticks, cause, five @ ..] = fields else {
        return None;
    };
    let travels: Option<Vec<i32>> = five.iter().map(|field| travel_field(field)).collect();
    Some(Entry { ticks: digits(ticks, 16)?, cause: two_digits(cause)?, travels: travels?.try_into().ok()? })
}

/// Stored vectors, A: `A hh hh hhhhhhhhhhhhhhhh hh e e e e e`.
pub(super) fn append_line(fields: &[&[u8]]) -> Option<String> {
    let [length, place, entry @ ..] = fields else {
        return None;
    };
    let length = two_digits(length).filter(|&length| length <= LONGEST_LINE_BUFFER)?;
    let place = two_digits(place)? as usize;
    let entry = entry_of_fields(entry)?;
    let mut buf = vec![BYTE_BEFORE; length as usize];
    let (after, number) = append(&mut buf, place, &entry);
    Some(written_text(number, after, &buf))
}

/// Stored vectors, J: a travel, `+` also of 0.
fn travel_text(travel: i32) -> String {
    let sign = if travel < 0 { '-' } else { '+' };
    format!("{sign}{:08X}", travel.unsigned_abs())
}

/// Stored vectors, J: next place, ticks, cause, travels.
fn entry_text(entry: &Entry, next: usize) -> String {
    let travels = entry.travels.map(travel_text).join(" ");
    format!("{next:02X} {:016X} {:02X} {travels}", entry.ticks, entry.cause)
}

/// Stored vectors, J: what the reader answers; `--` for the journal's end.
fn read_text(bytes: &[u8], place: usize) -> String {
    match read(bytes, place) {
        Ok(None) => "--".to_string(),
        Ok(Some((entry, next))) => answer_text(Ok(entry_text(&entry, next))),
        Err(number) => answer_text(Err(number)),
    }
}

/// Stored vectors, J: `J hh hh..`, place and up to forty bytes.
pub(super) fn read_line(place: &[u8], field: &[u8]) -> Option<String> {
    let place = two_digits(place)? as usize;
    let bytes = bytes_of(field).filter(|bytes| bytes.len() <= MOST_JOURNAL_BYTES)?;
    Some(format!("{}\n", read_text(&bytes, place)))
}
