//! Stored vectors of the host end: the text of the stored input.

mod carry_on;
mod figures;
mod identification;
mod other_forms;
mod picker;
mod reader;
mod vector_lines;
mod writer;

use crate::text::Text;

/// Stored vectors: the stored input of the host end.
pub fn host_text() -> String {
    let mut text = Text::begun("Stored vectors of the host end");
    writer::settings(&mut text);
    writer::orders_and_readings(&mut text);
    writer::identifications(&mut text);
    writer::line_buffers(&mut text);
    writer::carry_ons(&mut text);
    identification::lines(&mut text);
    reader::answers(&mut text);
    reader::capital_s(&mut text);
    carry_on::blocks(&mut text);
    reader::positions_and_inputs(&mut text);
    reader::characters_of_blocks(&mut text);
    reader::lengths_of_blocks(&mut text);
    identification::blocks(&mut text);
    picker::pickers(&mut text);
    figures::exact_figures(&mut text);
    figures::inexact_figures(&mut text);
    figures::units_and_pairs(&mut text);
    other_forms::other_forms(&mut text);
    text.heading("one line of the right form at the end, without its line feed");
    text.ended_by("B 52303030303030310D")
}
