//! Lines (chapter 7, 9): a received line is read, with numbers 4 to 10; the form (4 to 7) is judged here.

mod code;
mod value;

use crate::command::Command;
use crate::digit::{digit_value, Digit};
use code::{check_code, check_count, check_w_count};
use value::{read_capital_q, read_p, read_small_q, read_w};

/// Lines: the byte that ends a line.
pub const LINE_END: u8 = 0x0D;

/// Turned away, 4: the most characters of a line.
pub const MOST_CHARACTERS: usize = 9;

/// Lines: an accepted line with its command, its six digits (absent digits 0) and its identification.
#[derive(Clone, Copy, Debug, PartialEq, Eq)]
pub struct ReadLine {
    pub command: Command,
    pub digits: [u8; 6],
    pub identification: Option<Digit>,
}

/// Lines: the bytes of a line, its characters and then 0D.
pub fn with_line_end(text: &[u8]) -> impl Iterator<Item = u8> + '_ {
    text.iter().copied().chain([LINE_END])
}

/// Lines: a line whose second character is 4 never answers.
pub fn is_silent(line: &[u8]) -> bool {
    line.get(1) == Some(&b'4')
}

/// Lines: the identification is the character after the six digits: 0-9, A-F or, by paper 02, 7/14, a-f.
pub fn identification(line: &[u8]) -> Option<Digit> {
    line.get(8).copied().and_then(Digit::read)
}

/// Turned away, 4: under 2 or over 9 characters.
fn check_length(line: &[u8]) -> Result<(), u8> {
    if line.len() < 2 || line.len() > MOST_CHARACTERS {
        return Err(4);
    }
    Ok(())
}

/// Turned away, 5: first character not P, Q, q, W.
fn check_letter(line: &[u8]) -> Result<u8, u8> {
    match line[0] {
        b'P' | b'Q' | b'q' | b'W' => Ok(line[0]),
        _ => Err(5),
    }
}

/// Turned away, 6: second character not 0 or 4.
fn check_second(line: &[u8]) -> Result<(), u8> {
    match line[1] {
        b'0' | b'4' => Ok(()),
        _ => Err(6),
    }
}

/// Turned away, 7: a later character is no digit, or the ninth no identification. Paper 02, 7/14 widens the latter to
/// either case, so that both take the same characters; the ninth is not counted among the digits.
fn check_digits(line: &[u8]) -> Result<Vec<u8>, u8> {
    let mut digits = Vec::new();
    for &character in &line[2..] {
        digits.push(digit_value(character).ok_or(7)?);
    }
    digits.truncate(6);
    Ok(digits)
}

/// Lines: six digits with absent ones 0.
fn six_digits(digits: &[u8]) -> [u8; 6] {
    let mut six = [0; 6];
    for (place, &digit) in digits.iter().enumerate().take(6) {
        six[place] = digit;
    }
    six
}

/// Turned away, 8 to 10, in checking order.
fn read_command(letter: u8, digits: &[u8]) -> Result<Command, u8> {
    if letter == b'W' {
        check_w_count(digits.len())?;
        return Ok(read_w(digits));
    }
    let code = check_code(letter, digits)?;
    check_count(letter, code, digits.len())?;
    let six = six_digits(digits);
    match letter {
        b'P' => read_p(code, &six),
        b'Q' => read_capital_q(code, &six),
        _ => Ok(read_small_q(code)),
    }
}

/// Turned away, 4 to 10, in checking order, for the characters before 0D.
pub fn read_line(line: &[u8]) -> Result<ReadLine, u8> {
    check_length(line)?;
    let letter = check_letter(line)?;
    check_second(line)?;
    let digits = check_digits(line)?;
    let command = read_command(letter, &digits)?;
    Ok(ReadLine { command, digits: six_digits(&digits), identification: identification(line) })
}
