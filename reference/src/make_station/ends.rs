//! Stored vectors of the converter: the 00 that ends a command, and odd bytes.

use crate::text::Text;

/// 8/14: one of the four without its 00, with two, with one inside, with bytes behind it.
const NULLS: [&[u8]; 17] = [
    b"",
    b"\0",
    b"\0\0",
    b" \0",
    b"\0SST X\0",
    b"SPD X 5",
    b"INC X 5",
    b"LNI X 5,Y 5",
    b"SST X",
    b"SST X\0\0",
    b"SST X\0Y\0",
    b"SST X\0 ",
    b"INC X 5\0\r",
    b"INC X \x005\0",
    b"INC\0X 5\0",
    b"LNI X 5,\0Y 5\0",
    b"LNI X 5,\0 Y 5",
];

/// Source document 001, chapter 2: bytes that are none of its characters, and digits with their top bit set.
const ODD_BYTES: [&[u8]; 7] =
    [b"SST\tX\0", b"SST X\r\0", b"\xD3ST X\0", b"SST \xD8\0", b"INC X 5\xB5\0", b"INC X \xAD5\0", b"SST\xA0X\0"];

/// 8/14: the 00 must be the last byte and the only one.
pub(super) fn nulls(text: &mut Text) {
    text.heading("no byte; the 00 missing, twice, inside, and with bytes behind it");
    NULLS.iter().for_each(|bytes| text.command(bytes));
}

/// 8/14: any bytes have an answer.
pub(super) fn odd_bytes(text: &mut Text) {
    text.heading("odd bytes");
    ODD_BYTES.iter().for_each(|bytes| text.command(bytes));
}
