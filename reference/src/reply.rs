//! Lines (chapter 7, 9): the blocks of a reply.

use crate::digit::{digit_character, six_characters, Digit};
use crate::line::LINE_END;

/// Lines and replies: letter, second character, six digits in capitals and identification where given, 0D. Paper 02,
/// 7/14: the identification is the very character.
pub fn assembled(letter: u8, second: u8, value: Option<u32>, identification: Option<Digit>) -> Vec<u8> {
    let mut bytes = vec![letter, second];
    bytes.extend(value.map(six_characters).into_iter().flatten());
    bytes.extend(identification.map(Digit::character));
    bytes.push(LINE_END);
    bytes
}

/// Replies: letter, switch digit, six digits, the identification if given, 0D.
pub fn block(letter: u8, switch: u8, value: u32, identification: Option<Digit>) -> Vec<u8> {
    assembled(letter, digit_character(switch), Some(value), identification)
}

/// Replies: a turned-away line answers U 0000nn, with the line's identification from 8 on and none for 4 to 7.
pub fn turned_away(switch: u8, number: u8, identification: Option<Digit>) -> Vec<u8> {
    if number >= 8 {
        block(b'U', switch, number as u32, identification)
    } else {
        block(b'U', switch, number as u32, None)
    }
}
