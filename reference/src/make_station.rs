//! Stored vectors of the converter of MD5230D commands (paper 02, 8/14): the text of the stored input.

mod ends;
mod names;
mod other_forms;
mod ranges;
mod refused_forms;
mod taken_forms;
mod vector_lines;

use crate::text::Text;

/// Stored vectors: the stored input of the converter.
pub fn station_text() -> String {
    let mut text = Text::begun("Stored vectors of the converter of MD5230D commands");
    names::each_name(&mut text);
    names::lacked(&mut text);
    names::near_names(&mut text);
    taken_forms::taken_forms(&mut text);
    refused_forms::refused_forms(&mut text);
    ends::nulls(&mut text);
    ends::odd_bytes(&mut text);
    ranges::speeds(&mut text);
    ranges::distances(&mut text);
    ranges::long_numbers(&mut text);
    ranges::most_bytes(&mut text);
    other_forms::other_forms(&mut text);
    text.heading("one line of the right form at the end, without its line feed");
    text.ended_by("C 535354205900")
}
