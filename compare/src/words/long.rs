//! Lines about 100 and 250 characters long, at times far longer: good forms up to 99, none from 100 on.

use super::{any_byte, command, figure, form, reply, sums, wish};
use crate::random::Random;

fn length(random: &mut Random) -> usize {
    let length = match random.below(40) {
        0..=23 => random.between(97, 102),
        24..=35 => random.between(246, 260),
        36..=38 => random.between(90, 300),
        _ => random.between(300, 5_000),
    };
    length as usize
}

/// A character is put in at a place until the line has its length.
fn stretched(mut line: Vec<u8>, at: usize, character: u8, length: usize) -> Vec<u8> {
    let more = length.saturating_sub(line.len());
    line.splice(at..at, vec![character; more]);
    line
}

/// Zeros before the first digit, which leave a form; where there is no digit, spaces or letters at the end.
pub fn with_zeros(random: &mut Random, line: Vec<u8>, length: usize) -> Vec<u8> {
    match line.iter().position(u8::is_ascii_digit) {
        Some(at) => stretched(line, at, b'0', length),
        None => {
            let (end, character) = (line.len(), random.pick(b" px"));
            stretched(line, end, character, length)
        }
    }
}

/// A line with zeros before its first number until it is about 100 characters long, or far longer.
pub fn lengthened(random: &mut Random, line: Vec<u8>) -> Vec<u8> {
    let length = length(random);
    with_zeros(random, line, length)
}

/// A line of the same words again and again.
fn repeated(random: &mut Random, length: usize) -> Vec<u8> {
    let words = form(random) + " ";
    words.bytes().cycle().take(length).collect()
}

pub fn line(random: &mut Random) -> Vec<u8> {
    let length = length(random);
    let line = match random.below(10) {
        0..=3 => wish::around(random, command::form),
        4 => form(random).into_bytes(),
        5 => sums::line(random).into_bytes(),
        6 => {
            let figure = figure::form(random).into_bytes();
            let end = figure.len();
            return stretched(figure, end, b'0', length);
        }
        7 => {
            let block = reply::line(random);
            let end = block.len();
            return stretched(block, end, b'0', length);
        }
        8 => return repeated(random, length),
        _ => return (0..length).map(|_| any_byte(random)).collect(),
    };
    with_zeros(random, line, length)
}
