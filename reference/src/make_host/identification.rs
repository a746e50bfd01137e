//! Stored vectors, W and B: identifications of either case (paper 02, 7/14), and small letters in other places.

use super::writer::COMMANDS;
use crate::text::{Text, IDENTIFICATIONS, NEXT_TO_THEM};

/// Host end: the writer takes each identification with each case of a letter; a W query has none.
pub(super) fn lines(text: &mut Text) {
    text.heading("writer: small identifications on every command, silent and not");
    for figures in COMMANDS {
        text.writer(0x0A, 0, figures, "61");
        text.writer(0x0C, 1, figures, "66");
    }
    text.heading("writer: each of the 22 identifications; two that differ in case alone one behind the other");
    for character in IDENTIFICATIONS.bytes() {
        text.writer(0x0A, 0, (0x00, 2, 1, 0x2_BCDE), &format!("{character:02X}"));
        text.writer(0x0B, 1, (0x11, 0, 0, 0xFE_DCBA), &format!("{character:02X}"));
    }
    for letter in 0x41..=0x46 {
        text.writer(0x0A, 0, (0x0F, 0, 0, 0), &format!("{letter:02X}"));
        text.writer(0x0A, 0, (0x0F, 0, 0, 0), &format!("{:02X}", letter + 0x20));
    }
    text.heading("writer: the characters next to them, and 18 before 19");
    for character in NEXT_TO_THEM.bytes() {
        for length in [0x09, 0x0A, 0x0B] {
            text.writer(length, 0, (0x0F, 0, 0, 0), &format!("{character:02X}"));
        }
    }
}

/// Replies: a block of each form.
const FORMS: [&str; 8] =
    ["U0000000", "U9000008", "U000001A", "S0281388", "SA60007F", "SF8CABCD", "s01FFFFF", "RBABCDEF"];

/// Host end: the reader takes either case as identification; the six digits and the switch digit stay in capitals.
pub(super) fn blocks(text: &mut Text) {
    text.heading("reader: every form with each of the 22 identifications, and with the characters next to them");
    for form in FORMS {
        for identification in IDENTIFICATIONS.chars().chain(NEXT_TO_THEM.chars()) {
            text.block(&format!("{form}{identification}"));
        }
    }
    text.heading("reader: U, every number from 0 to 27 with a small identification: none for 4 to 7");
    for number in 0..=27 {
        text.block(&format!("U0{number:06X}a"));
        text.block(&format!("UF{number:06X}f"));
    }
    small_letters(text);
}

/// Replies: good blocks, of which each letter in turn is made small; the first has one in every place.
const CAPITALS: [&str; 5] = ["RABCDEFA", "SDD033FF", "SFCFEDCB", "sB0ABCDE", "UA00001A"];

/// Turned away, 20: a small letter in each place, without an identification, with a capital and with a small one.
fn small_letters(text: &mut Text) {
    text.heading("reader: a small letter in the switch digit and in each of the six, whatever the identification");
    for form in CAPITALS {
        text.block_both(form);
        for place in (1..8).filter(|&place| form.as_bytes()[place].is_ascii_uppercase()) {
            let mut block = form.to_string();
            block[place..=place].make_ascii_lowercase();
            for identification in ["", "A", "a"] {
                text.block(&format!("{block}{identification}"));
            }
        }
    }
    for block in ["SA600000a", "Sa600000", "Sa600000a", "s0000abca", "s0000ABCa", "s0000fff", "s0000FFFf", "Uc000000a"]
    {
        text.block(block);
    }
}
