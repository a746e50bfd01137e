//! Stored vectors, B: what the reader makes of the bytes of a block.

use super::answer_text;
use crate::coded::coded;
use crate::digit::Digit;
use crate::fields::{bytes_of, bytes_text};
use crate::host::{read_block, Block, Reading};

/// Stored vectors, B: the most bytes for the reader.
pub const MOST_READER_BYTES: usize = 16;

/// Stored vectors: the identification of a block as the two digits of its character.
fn identification_text(identification: Option<Digit>) -> String {
    match identification {
        Some(digit) => bytes_text(&[digit.character()]),
        None => "--".to_string(),
    }
}

/// Stored vectors, blocks: sign and magnitude of a position, `+` also of 0.
fn position_text(position: i32) -> String {
    let sign = if position < 0 { '-' } else { '+' };
    format!("{sign} {:06X}", position.unsigned_abs())
}

/// Stored vectors, blocks: the letter that is printed, and the figures after the switch digit.
fn reading_text(reading: Reading) -> (char, String) {
    match reading {
        Reading::Answer { number } => ('U', format!("{number:02}")),
        Reading::Travel { axis, minus, travel } => ('T', format!("{axis} {} {travel:06X}", minus as u8)),
        Reading::Status { status } => ('Q', format!("{status:02X}")),
        Reading::Echo { code, five } => ('E', format!("{:06X}", coded(code, five))),
        Reading::Position { axis, position } => ('P', format!("{axis} {}", position_text(position))),
        Reading::Inputs { word } => ('I', format!("{word:06X}")),
    }
}

/// Stored vectors, blocks: the figures of a block.
fn block_text(block: Block) -> String {
    let (letter, figures) = reading_text(block.reading);
    format!("{letter} {:X} {figures} {}", block.switch, identification_text(block.identification))
}

/// Stored vectors, B: the reader, of 0 to 16 bytes.
pub(super) fn reader_line(field: &[u8]) -> Option<String> {
    let bytes = bytes_of(field).filter(|bytes| bytes.len() <= MOST_READER_BYTES)?;
    Some(format!("{}\n", answer_text(read_block(&bytes).map(block_text))))
}
