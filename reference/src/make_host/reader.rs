//! Stored vectors, B: every letter and code of a block, its characters, its length and its 0D.

use crate::line::LINE_END;
use crate::text::Text;

/// Replies: U, every number with and without identification.
pub(super) fn answers(text: &mut Text) {
    text.heading("reader: U, every number from 0 to 20 and others, without and with identification");
    let others = [0x17, 0xFF, 0x100, 0x108, 0x1000, 0x1_0000, 0x10_0000, 0x10_0008, 0xFF_FFFF];
    for number in (0..=20).chain(others) {
        text.block_both(&format!("U0{number:06X}"));
    }
}

/// Replies: S, the travels, status and echoes.
pub(super) fn capital_s(text: &mut Text) {
    text.heading("reader: S 0-4, travel and minus bit, least and greatest");
    for axis in 0..5 {
        for five in [0x00000, 0x00001, 0x12345, 0x7FFFF, 0x80000, 0x80001, 0xFFFFF] {
            text.block(&format!("S{axis}{axis}{five:05X}"));
        }
    }
    text.heading("reader: S, every code with least and greatest digits");
    for code in 0..16 {
        text.block_both(&format!("S0{code:X}00000"));
        text.block_both(&format!("S0{code:X}FFFFF"));
    }
    text.heading("reader: S 6, status bits 0 to 6 and no other");
    for bit in 0..20 {
        text.block(&format!("S06{:05X}", 1 << bit));
    }
    for five in [0x0007F, 0x00080, 0x000FF, 0x0017F, 0x8007F] {
        text.block_both(&format!("S06{five:05X}"));
    }
    echoes(text);
}

/// Replies: S 8, 9, A, B, D and E echo an accepted Q line.
fn echoes(text: &mut Text) {
    text.heading("reader: S 8, every second digit");
    for second in 0..16 {
        text.block_both(&format!("S08{second:X}0000"));
        text.block(&format!("SF8{second:X}FFFF"));
    }
    text.heading("reader: S 9, A and B, any digits");
    for code in ['9', 'A', 'B'] {
        text.block_both(&format!("SE{code}00001"));
        text.block_both(&format!("SE{code}ABCDE"));
    }
    text.heading("reader: S D and S E, all bits that may be set, each bit alone, each forbidden bit beside them");
    for code in ['D', 'E'] {
        text.block_both(&format!("S0{code}033FF"));
        for bit in 0..20 {
            text.block(&format!("S0{code}{:05X}", 1 << bit));
        }
        for bit in [10, 11, 14, 15, 16, 17, 18, 19] {
            text.block(&format!("S0{code}{:05X}", 0x33FF | 1 << bit));
        }
    }
}

/// Replies: s and R.
pub(super) fn positions_and_inputs(text: &mut Text) {
    text.heading("reader: s 0-4, positions least, greatest and around 0");
    for axis in 0..5 {
        for five in [0x00000, 0x00001, 0x0000A, 0x7FFFF, 0x80000, 0x80001, 0xFFFF6, 0xFFFFF] {
            text.block(&format!("s{axis}{axis}{five:05X}"));
        }
    }
    text.heading("reader: s, every code");
    for code in 0..16 {
        text.block_both(&format!("s0{code:X}00000"));
        text.block(&format!("s0{code:X}FFFFF"));
    }
    text.heading("reader: R, least, greatest and others");
    for word in [0, 1, 0x80_0000, 0xAB_CDEF, 0xFF_FFFF] {
        text.block_both(&format!("R0{word:06X}"));
    }
}

/// Replies: characters beside the digits in the table of characters, and some far from them.
const NEAR: [u8; 13] = [0x00, 0x0A, 0x0D, 0x20, 0x2F, 0x3A, 0x40, 0x47, 0x60, 0x67, 0x80, 0xB0, 0xFF];

/// Replies: every digit.
fn every_digit() -> impl Iterator<Item = u8> {
    (b'0'..=b'9').chain(b'A'..=b'F')
}

/// Replies: characters that are no digits of a block: small letters and nearest characters.
fn no_digits() -> impl Iterator<Item = u8> {
    (b'a'..=b'f').chain(NEAR)
}

/// Replies: a block of six digits 0 with this letter and this switch digit.
fn zero_block(letter: u8, switch: u8) -> [u8; 9] {
    [letter, switch, b'0', b'0', b'0', b'0', b'0', b'0', LINE_END]
}

/// Replies: the switch digit, the identification, the letter and the six digits.
pub(super) fn characters_of_blocks(text: &mut Text) {
    text.heading("reader: every switch digit in every letter, C among them; small letters and nearest characters");
    for letter in *b"USsR" {
        every_digit().for_each(|switch| text.reader(&zero_block(letter, switch)));
    }
    no_digits().for_each(|switch| text.reader(&zero_block(b'R', switch)));
    text.heading("reader: every identification, of either case; nearest characters");
    for identification in every_digit().chain(no_digits()) {
        text.reader(&[b's', b'D', b'2', b'F', b'F', b'F', b'F', b'6', identification, LINE_END]);
    }
    text.heading("reader: other letters");
    for letter in b"PQWTuqrwVR".iter().chain(&[0x00, 0x0D, 0x20, 0xD3, 0xFF]) {
        text.reader(&zero_block(*letter, b'0'));
    }
    wrong_digits(text);
}

/// Replies: characters among the six digits that are none.
fn wrong_digits(text: &mut Text) {
    text.heading("reader: a wrong character in each of the six places");
    for place in 2..8 {
        for wrong in no_digits() {
            let mut block = *b"R0123456\r";
            block[place] = wrong;
            text.reader(&block);
        }
    }
    text.heading("reader: small letters in U, S and s");
    for block in ["U000000a", "U00000f", "S00abcde", "s00ffff6", "S0b00000", "s0A00000"] {
        text.block_both(block);
    }
}

/// Replies: blocks whose 0D is missing, doubled or in the wrong place.
const WRONG_ENDS: [&str; 11] = [
    "R0123456\r\r",
    "R0123456A\r\r",
    "R0123456\rR",
    "R0123456\r\n",
    "R0123456\n",
    "\rR0123456\r",
    "R012345\r\r",
    "R0\r\r\r\r\r\r\r",
    "U0000000\rU000000",
    "\r\r\r\r\r\r\r\r\r",
    "\r\r\r\r\r\r\r\r\r\r",
];

/// Replies: the length of a block and its 0D.
pub(super) fn lengths_of_blocks(text: &mut Text) {
    text.heading("reader: every length from 0 to 16, with 0D at the end and without");
    for length in 0..=16 {
        let digits = &b"R01234567890ABCD"[..length];
        text.reader(digits);
        if length > 0 {
            let mut block = digits.to_vec();
            block[length - 1] = LINE_END;
            text.reader(&block);
        }
    }
    text.heading("reader: 0D twice, 0D and more, line feed, 0D inside, two blocks begun");
    for block in WRONG_ENDS {
        text.reader(block.as_bytes());
    }
}
