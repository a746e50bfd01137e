//! From words: reply blocks in words.

use super::sentences::turned_away;
use super::Told;
use crate::digit::{capital_digit_value, digit_character};
use crate::host::{read_block, Block, Reading};
use crate::line::LINE_END;

/// From words: the status bits that are told behind the first word, each with its own.
const OTHER_BITS: [(u32, &str); 5] = [
    (2, "wrong master"),
    (3, "stopped by order, limit or watch"),
    (4, "an axis is blocked"),
    (5, "emergency is held"),
    (6, "stopped by the sensor"),
];

/// From words, rule 3: U, S, s or R and then 0-9 or A-F.
pub(super) fn begins_as_block(line: &[u8]) -> bool {
    match line {
        [b'U' | b'S' | b's' | b'R', second, ..] => capital_digit_value(*second).is_some(),
        _ => false,
    }
}

/// From words: U.
fn answer_words(number: u8) -> String {
    match number {
        0 => "accepted".to_string(),
        _ => turned_away(number),
    }
}

/// From words: S 0-4, the minus bit as a word.
fn travel_words(axis: u8, minus: bool, travel: u32) -> String {
    let direction = if minus { "minus" } else { "plus" };
    format!("travel {axis} {direction} {travel}")
}

/// From words: S 6. Bit 1 goes before bit 0, and each other bit that is set has its words.
fn status_words(status: u32) -> String {
    let is_set = |bit: u32| status >> bit & 1 == 1;
    let first = if is_set(1) {
        "moving"
    } else if is_set(0) {
        "dwell"
    } else {
        "at rest"
    };
    let mut text = format!("status {status}: {first}");
    for (_, words) in OTHER_BITS.into_iter().filter(|&(bit, _)| is_set(bit)) {
        text.push_str(", ");
        text.push_str(words);
    }
    text
}

/// From words: S 8, its second digit being the master, or master plus 8 after the dwell.
fn start_words(second: u32) -> String {
    match second {
        0..=7 => format!("start {second}"),
        _ => format!("start {} after dwell", second - 8),
    }
}

/// From words: S 8, 9, A, B, C, D, E; the free digits of an order's echo are not told.
fn echo_words(code: u8, five: u32) -> String {
    let order = match code {
        0x8 => start_words(five >> 16),
        0x9 => "stop".to_string(),
        0xA => "clear".to_string(),
        0xB => "reset".to_string(),
        0xC => "carry on".to_string(),
        0xD => format!("low {five:06X}"),
        _ => format!("high {five:06X}"),
    };
    format!("accepted: {order}")
}

/// From words: what a block was made from.
fn reading_words(reading: Reading) -> String {
    match reading {
        Reading::Answer { number } => answer_words(number),
        Reading::Travel { axis, minus, travel } => travel_words(axis, minus, travel),
        Reading::Status { status } => status_words(status),
        Reading::Echo { code, five } => echo_words(code, five),
        Reading::Position { axis, position } => format!("position {axis} {position}"),
        Reading::Inputs { word } => format!("inputs {word:06X}"),
    }
}

/// From words: the switch digit is told where it is not 0, the identification where there is one, in its own case.
fn block_words(block: Block) -> String {
    let mut text = reading_words(block.reading);
    if block.switch != 0 {
        text.push_str(&format!(" (switch {})", digit_character(block.switch) as char));
    }
    if let Some(identification) = block.identification {
        text.push_str(&format!(" (as {})", identification.character() as char));
    }
    text
}

/// From words: a reply block in words, 0D in the place of its line feed; 20 where the reader takes no block.
pub(super) fn in_words(line: &[u8]) -> Told {
    read_block(&[line, &[LINE_END]].concat()).map(block_words)
}
