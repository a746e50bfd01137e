//! Source document 001, chapter 3: the names of its commands.

use super::form::{NULL, SPACE};

/// Source document 001, table of chapter 3, column "Code", line by line.
#[rustfmt::skip]
pub const NAMES: [&[u8]; 39] = [
    // Program control commands.
    b"PRG", b"PSP", b"EDP", b"PRS", b"PSE",
    // Drive commands.
    b"ABS", b"ABB", b"INC", b"ICB", b"ABA", b"ICA", b"CNT", b"HOM", b"HMB", b"SST", b"IST",
    // Interpolation commands.
    b"LNI", b"CWI", b"CCW",
    // Drive setting commands.
    b"SPD", b"HOF", b"HON", b"SLP", b"SRP", b"SAP",
    // State acquisition commands.
    b"SPG", b"RLP", b"RRP", b"ROT", b"RIN", b"RDR", b"RPE", b"RVR",
    // Other commands.
    b"OUT", b"OTP", b"SSP", b"PST", b"RST", b"ERS",
];

/// 8/14: the four that are converted; this bench lacks the others.
pub const CONVERTED: [&[u8]; 4] = [b"SPD", b"INC", b"LNI", b"SST"];

/// Lines of the other bench make: a name runs to the first space or 00, or to the end.
pub(super) fn name_of(command: &[u8]) -> &[u8] {
    let end = command.iter().position(|&byte| byte == SPACE || byte == NULL);
    &command[..end.unwrap_or(command.len())]
}
