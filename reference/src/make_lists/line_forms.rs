//! Stored lists: identifications, digit counts, either case, and bytes that are no characters of a line.

use crate::line::LINE_END;
use crate::text::{Text, IDENTIFICATIONS};

/// Lines: identification, readings, echoes, either case.
pub(super) fn identifications(text: &mut Text) {
    text.fast_list(
        0x00,
        0x03,
        "Identification on every kind of line; readings with every digit count; either case",
        &["P0000014A", "P01800130", "P0280000F", "P0A00000B", "P0B00000C", "P0C00AAAD", "W05A5A5AE"],
    );
    text.lines(&["Q08000001"]);
    text.read_after(400, 0xABCDEF);
    for (place, id) in IDENTIFICATIONS.chars().enumerate() {
        text.lines(&[&format!("Q0{}12345{id}", place % 5), &format!("q0800000{id}"), &format!("q4800000{id}")]);
    }
    text.lines(&["Q0600000A", "q0300000B", "Q0A00000C", "Q0D000000", "Q0E000009", "W0123456F", "Q4600000A"]);
    digit_counts(text);
    text.read_after(200, 0x0F0F0F);
    text.lines(&["Q09abcde5", "q08", "q0800000F"]);
    text.read_after(600, 0);
    text.lines(&["P08f4240", "P0900fff", "P0a00000", "P0b0", "P0c00fffA", "P0280007", "Q0801234", "Q0912"]);
    text.read_after(1, 0);
    text.lines(&["Q08", "Q0800", "Q080000", "Q09", "Q08c", "Q08Cabcd"]);
    text.read_after(1, 0);
    text.end();
}

/// Lines: readings and echoes with every digit count that they take.
fn digit_counts(text: &mut Text) {
    text.lines(&["Q00", "Q012", "Q0123", "Q03456", "Q04567F", "Q01abcdef"]);
    text.lines(&["q00", "q012", "q0234", "q03456", "q04567F", "q01abcdef", "q08", "q08f", "q08fFfF", "q08FFFFF"]);
    text.lines(&["Q06", "Q061", "Q06ab", "Q06FFFF", "Q06fffff", "Q06FFFFF7", "W0", "W4", "W0abcdef", "W0aBcDeFA"]);
    text.lines(&["Q0Aab", "Q0Bcdef", "Q0a12345", "Q0b", "Q0d00000", "Q0e0000A", "p0", "Q0Babc"]);
}

/// Lines: every byte but 0D is a character.
pub(super) fn odd_bytes(text: &mut Text) {
    text.list(
        0x00,
        0x00,
        "Odd bytes in each place of a line: 00, 0A, FF, 8D; in the ninth small letters, taken from a to f",
    );
    text.lines(&["W0A5A5A5"]);
    text.ticks(1, 0x800001);
    for odd in [0x00, 0x0A, 0x20, 0x7F, 0x80, 0x8D, 0xB0, 0xD0, 0xFF] {
        odd_byte_in_each_place(text, odd);
    }
    text.readings();
    for ninth in *b"abcdefgGZ/:@`" {
        text.bytes(b"W0123456", 120);
        text.bytes(&[ninth, LINE_END], 120);
    }
    text.heading("every single character as a line, and twice 0D");
    for byte in [0x00, 0x0A, 0x30, 0x34, 0x50, 0x51, 0x57, 0x71, 0xFF] {
        text.bytes(&[byte, LINE_END, LINE_END], 120);
    }
    text.bytes(b"\n\n\n\n\n\n\n\n\n\n\r", 120);
    text.bytes(b"Q4\0\r", 120);
    text.bytes(b"\x004\r", 120);
    text.lines(&["Q06", "q08"]);
    text.ticks(1, 0);
    text.end();
}

/// Lines: an odd byte within a line, alone in one, and around one.
fn odd_byte_in_each_place(text: &mut Text, odd: u8) {
    for place in [0, 1, 2, 7, 8] {
        let mut line = *b"q0812345A\r";
        line[place] = odd;
        text.bytes(&line, 120);
    }
    text.bytes(&[odd, LINE_END], 120);
    text.bytes(&[b'Q', b'0', b'6', odd, LINE_END, odd, b'Q', b'0', b'6', LINE_END], 121);
}
