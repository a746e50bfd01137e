//! Stored vectors, C: what the converter of MD5230D commands makes of the bytes of a command.

use crate::fields::bytes_of;
use crate::host::line_text;
use crate::station::{convert, Converted};

/// Stored vectors, C: the most bytes of a command.
pub const MOST_COMMAND_BYTES: usize = 48;

/// Stored vectors, C: number, how many command values, and the writer's line of each of the six places.
fn converted_text(converted: &Converted) -> String {
    let places = converted.values.map(|value| line_text(&value).expect("each place has a line"));
    format!("{:02} {:X} {}", converted.number, converted.count, places.join(" "))
}

/// Stored vectors, C: `C hh..`, of 0 to 48 bytes.
pub(super) fn station_line(field: &[u8]) -> Option<String> {
    let bytes = bytes_of(field).filter(|bytes| bytes.len() <= MOST_COMMAND_BYTES)?;
    Some(format!("{}\n", converted_text(&convert(&bytes))))
}
