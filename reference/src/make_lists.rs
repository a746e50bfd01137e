//! Stored lists: the text of the stored input.

mod carry_on;
mod crooked;
pub(crate) mod drawn;
mod emergency;
mod entries;
mod extremes;
mod failing_starts;
mod identification;
mod largest_sums;
mod limits;
mod line_forms;
mod list_lines;
mod other_forms;
mod refused_calls;
mod refused_lines;
mod refused_starts;
mod sensor;
mod settle;
mod silence;
mod stops_by_order;
mod stored_starts;
mod switches;
mod watch;
mod watched;

use crate::text::Text;

/// Stored lists: the stored input.
pub fn lists_text() -> String {
    let mut text = Text::begun("Stored lists of calls");
    text.heading("Before any list: no call, switch 0");
    text.plain("E");
    switches::every_switch(&mut text);
    switches::polarities_of_all_groups(&mut text);
    refused_calls::lent_buffers(&mut text);
    refused_calls::large_words(&mut text);
    stored_starts::stored_starts(&mut text);
    failing_starts::stored_starts_that_fail(&mut text);
    stops_by_order::stops_by_order(&mut text);
    limits::limits(&mut text, true);
    limits::limits(&mut text, false);
    limits::limits_together(&mut text);
    sensor::sensor(&mut text);
    emergency::emergency(&mut text);
    refused_lines::refused_lines(&mut text);
    refused_lines::over_long_lines(&mut text);
    refused_lines::lines_in_a_move(&mut text);
    refused_starts::refused_starts(&mut text);
    line_forms::identifications(&mut text);
    line_forms::odd_bytes(&mut text);
    crooked::crooked_moves(&mut text);
    extremes::extremes(&mut text);
    watch::watch(&mut text);
    watched::watched(&mut text);
    silence::silence(&mut text);
    entries::entries(&mut text);
    settle::settle(&mut text);
    largest_sums::largest_sums(&mut text);
    carry_on::carry_on(&mut text);
    identification::identification(&mut text);
    drawn::drawn_lists(&mut text);
    other_forms::other_forms(&mut text);
    text.ended()
}
