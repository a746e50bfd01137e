//! Stored vectors: each line asks the writer, the reader, the converter, the master picker, the figures or the journal.

mod figures;
mod journal;
mod kind;
mod reader;
mod station;
mod writer;

use crate::fields::{bytes_text, eight_digits, printed, run_lines, split};
use crate::host::pick_master;
use std::io::{self, BufRead, Write};

pub use figures::LARGEST_WHOLE;
pub use journal::MOST_JOURNAL_BYTES;
pub use reader::MOST_READER_BYTES;
pub use station::MOST_COMMAND_BYTES;
pub use writer::{BYTE_BEFORE, LONGEST_LINE_BUFFER};

/// Stored vectors: number `00` and what was answered, or the number of the refusal alone.
fn answer_text(answer: Result<String, u8>) -> String {
    match answer {
        Ok(text) => format!("00 {text}"),
        Err(number) => format!("{number:02}"),
    }
}

/// Stored vectors, W and A: number, length of the line or place after the entry, each byte of the whole buffer.
fn written_text(number: u8, end: usize, buf: &[u8]) -> String {
    if buf.is_empty() {
        return format!("{number:02} {end:02X}\n");
    }
    format!("{number:02} {end:02X} {}\n", bytes_text(buf))
}

/// Stored vectors, M: the master picker, of the distances of axes 0 to 4.
fn picker_line(fields: &[&[u8]]) -> Option<String> {
    if fields.len() != 5 {
        return None;
    }
    let mut distances = [0; 5];
    for (distance, field) in distances.iter_mut().zip(fields) {
        *distance = eight_digits(field)?;
    }
    Some(format!("{:X}\n", pick_master(distances)))
}

/// Stored vectors: one line in one of the forms, or `None`.
fn obey(line: &[u8]) -> Option<String> {
    let fields = split(line);
    match fields[..] {
        [b"W", ..] => writer::writer_line(&fields[1..]),
        [b"B", bytes] => reader::reader_line(bytes),
        [b"C", bytes] => station::station_line(bytes),
        [b"M", ..] => picker_line(&fields[1..]),
        [b"F", kind, sign, m, exponent] => figures::figure_line(kind, sign, m, exponent),
        [b"U", kind, n] => figures::units_line(kind, n),
        [b"D", kind] => figures::digest_line(kind),
        [b"G", speed, slope] => figures::pair_line(speed, slope),
        [b"A", ..] => journal::append_line(&fields[1..]),
        [b"J", place, bytes] => journal::read_line(place, bytes),
        _ => None,
    }
}

/// Stored vectors: what one line prints.
pub fn answer(line: &[u8]) -> String {
    printed(line, obey)
}

/// Stored vectors: the whole program.
pub fn run<R: BufRead, W: Write>(input: R, output: &mut W) -> io::Result<()> {
    run_lines(input, output, answer)
}
