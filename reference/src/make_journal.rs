//! Stored vectors of the journal: the text of the stored input.

mod buffers;
mod entries;
mod journals;
mod other_forms;
mod ranges;
mod spellings;
mod vector_lines;

use crate::text::Text;

/// Stored vectors: the stored input of the journal.
pub fn journal_text() -> String {
    let mut text = Text::begun("Stored vectors of the journal");
    ranges::ticks_and_causes(&mut text);
    ranges::travels(&mut text);
    ranges::out_of_range_without_space(&mut text);
    buffers::lengths_and_places(&mut text);
    buffers::places_of_longer_buffers(&mut text);
    spellings::spellings_of_each_count(&mut text);
    spellings::ends_of_ranges(&mut text);
    spellings::nothing_after(&mut text);
    journals::every_place(&mut text);
    journals::every_cut(&mut text);
    journals::odd_journals(&mut text);
    other_forms::other_forms(&mut text);
    text.heading("one line of the right form at the end, without its line feed");
    text.ended_by("J 00 01010000000000")
}
