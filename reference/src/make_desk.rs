//! From words: the text of the stored input of the program desk. Each of its lines is one that the program answers, so
//! it has no headings.

mod blocks;
mod carry_on;
mod commands;
mod figures;
pub(crate) mod lines;
mod misspelt;
mod near_blocks;
mod odd_lines;
mod page;
mod program_words;
mod station;
mod sums;
mod trials;
mod wishes;

use lines::Lines;

/// From words: the stored input.
pub fn desk_text() -> Vec<u8> {
    let mut lines = Lines::begun();
    page::examples(&mut lines);
    commands::ranges(&mut lines);
    commands::malformed(&mut lines);
    figures::figures(&mut lines);
    wishes::identifications(&mut lines);
    wishes::wishes(&mut lines);
    program_words::program_words(&mut lines);
    trials::trials(&mut lines);
    blocks::blocks(&mut lines);
    near_blocks::near_blocks(&mut lines);
    carry_on::carry_on(&mut lines);
    station::station(&mut lines);
    sums::sums(&mut lines);
    misspelt::misspelt(&mut lines);
    odd_lines::lengths(&mut lines);
    odd_lines::odd_bytes(&mut lines);
    odd_lines::spaces(&mut lines);
    lines.ended_by("silent distance 4 -524287 as F")
}
