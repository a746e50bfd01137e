//! Stored lists: identifications of either case (paper 02, 7/14), in every form of a reply and with every number.

use super::list_lines::ONE_PULSE;
use super::settle::WITHOUT;
use crate::text::{Text, IDENTIFICATIONS, NEXT_TO_THEM};

/// Paper 02, 7/14: replies return the very character, at once and in the tick of a W line's block.
pub(super) fn identification(text: &mut Text) {
    every_form(text);
    case_alone(text);
    every_number(text);
    none_for_4_to_7(text);
    next_to_them(text);
    watch(text);
}

/// Lines: one for every form of a reply, without its identification. Data digits have either case, echoes capitals.
const FORMS: [&str; 11] = [
    "P0000005", "P0B0f0f0", "P08f4240", "Q00abcde", "Q06ABCDE", "q00fedcb", "Q0AaBcDe", "Q0B1fa00", "Q0D00000",
    "Q0e00000", "q0812345",
];

/// Replies: U, S of a travel, of the status and of each order, s, and the twelve of q 8; W lines beside them.
fn every_form(text: &mut Text) {
    let words = "Identification: each of the 22 in every form of a reply, for every switch";
    text.fast_list(0x00, 0x10, words, &["P0180003"]);
    for id in IDENTIFICATIONS.chars() {
        for line in FORMS {
            text.lines(&[&format!("{line}{id}")]);
        }
        text.stop_into_dwell(&format!("Q0880000{id}"), 0);
        text.lines(&[&format!("Q0Cabcde{id}"), &format!("Q09fffff{id}")]);
        text.read_after(1, 0);
        text.lines(&[&format!("W0a5A5a5{id}")]);
    }
    text.heading("the block of the last one");
    text.read_runs(&[(WITHOUT, 0), (1, 0xABCDEF), (1, 0)]);
    text.end();
}

/// Paper 02, 7/14: two characters count as different when only their case differs; a W line that differs in nothing
/// else takes the place of an earlier one, and the block has its own.
fn case_alone(text: &mut Text) {
    text.list(0x00, 0x01, "Identification: two that differ in case alone, one behind the other and in its place");
    for (capital, small) in "ABCDEF".chars().zip("abcdef".chars()) {
        for (first, second) in [(capital, small), (small, capital)] {
            text.lines(&[&format!("q0800000{first}"), &format!("q0800000{second}")]);
            for (id, ticks) in [(first, WITHOUT + 2), (first, WITHOUT), (second, WITHOUT + 2)] {
                text.lines(&[&format!("W0ABCDEF{id}")]);
                text.read_after(ticks, 0x12_3456);
            }
        }
    }
    text.heading("a silent one takes the place too and gives no block");
    text.lines(&["W0ABCDEFa", "W4ABCDEFA"]);
    text.read_after(WITHOUT + 2, 0x00_0004);
    text.end();
}

/// Turned away, 8, 10 to 17 and 26: lines, then ticks with a word, after which this line is turned away so.
const NUMBERS: [(u8, &[&str], (u32, u32), &str); 10] = [
    (8, &[], (1, 0), "P0500001"),
    (10, &[], (1, 0), "P0800000"),
    (26, &[], (1, 0), "Q0C00000"),
    (15, &[], (1, 0), "Q0800000"),
    (14, &["P0100001"], (1, 0), "Q0800000"),
    (16, &["Q0A", "Q0E00004"], (1, 0x0004), "Q0810000"),
    (13, &["Q0E02000"], (1, 0x2000), "Q0810000"),
    (17, &["Q0E00000", "P007FFFF"], (1, 0), "Q0800000"),
    (11, &["P007FFFE", "Q080"], (200, 0), "P0900001"),
    (12, &["Q0E01000"], (400, 0x1000), "Q0800000"),
];

/// Replies: from 8 on with the line's identification. No line of six digits has 9.
fn every_number(text: &mut Text) {
    let words = "Identification: each of the 22 with 8, 10 to 17 and 26; silent lines with some";
    text.fast_list(0x00, 0x01, words, &["P0000001", "Q080"]);
    text.ticks(ONE_PULSE, 0);
    text.lines(&["P0000000"]);
    for (number, lines, (count, word), line) in NUMBERS {
        text.heading(&format!("number {number}"));
        text.lines(lines);
        text.read_after(count, word);
        for id in IDENTIFICATIONS.chars() {
            text.lines(&[&format!("{line}{id}")]);
        }
        text.replied_and_silent(&format!("{line}a"));
        text.readings();
    }
    text.end();
}

/// Replies: none for 4 to 7, whatever the ninth character is.
fn none_for_4_to_7(text: &mut Text) {
    text.list(0x00, 0x00, "Identification: 4 to 7 are answered without it, and nothing is altered");
    text.ticks(1, 0x123456);
    for id in IDENTIFICATIONS.chars() {
        for line in ["P0000001A", "P00000019", "X0000001", "p0000001", "P1000001", "P0/00001", "P000000g", "W0`00000"] {
            text.lines(&[&format!("{line}{id}")]);
        }
    }
    text.lines(&["q08"]);
    text.end();
}

/// Turned away, 7: the characters next to the identifications, in lines of every letter; the block that is to come
/// keeps its own.
fn next_to_them(text: &mut Text) {
    text.list(0x0A, 0x0B, "Identification: the characters next to 0-9, A-F and a-f are turned away by 7");
    for (next, id) in NEXT_TO_THEM.chars().zip("09AFaf".chars()) {
        text.lines(&[&format!("W0ABCDEF{id}")]);
        text.ticks(WITHOUT, 0);
        for line in ["P0000001", "Q0600000", "Q0800000", "q0800000", "W0123456", "W0abcdef"] {
            text.replied_and_silent(&format!("{line}{next}"));
        }
        text.read_runs(&[(1, 0x89_ABCD), (1, 0)]);
        text.lines(&[&format!("Q0600000{id}"), "q08"]);
    }
    text.end();
}

/// Lines: an accepted line zeroes the watch count, one with a small letter too; one turned away by 7 does not.
fn watch(text: &mut Text) {
    text.fast_list(
        0x02,
        0x02,
        "Identification: a small one postpones the stop by the watch, the character behind it does not",
        &["P0000003", "P0800001", "P0B10000b", "Q080"],
    );
    text.ticks(999_999, 0);
    text.read_lines(&["Q0600000f"]);
    text.ticks(999_998, 0);
    text.read_lines(&["Q0600000g", "Q4600000g"]);
    text.read_after_each(&[1, 1, 1, 1], 0);
    text.end();
}
