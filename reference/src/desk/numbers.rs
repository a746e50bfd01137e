//! From words: numbers as a person writes them.

use crate::digit::digit_value;

/// From words: an axis or a master over this counts as this.
const MOST_AXIS: u32 = 255;

/// From words: one digit or more; a number over 4,294,967,295 counts as that.
fn number(word: &[u8], base: u8) -> Option<u32> {
    if word.is_empty() {
        return None;
    }
    let mut number = 0u32;
    for &character in word {
        let digit = digit_value(character).filter(|&digit| digit < base)?;
        number = number.saturating_mul(base.into()).saturating_add(digit.into());
    }
    Some(number)
}

/// From words: a decimal number has digits 0-9, with leading zeros or without.
pub(crate) fn decimal(word: &[u8]) -> Option<u32> {
    number(word, 10)
}

/// From words: a hexadecimal number has digits 0-9, A-F or a-f, with leading zeros or without.
pub(crate) fn hexadecimal(word: &[u8]) -> Option<u32> {
    number(word, 16)
}

/// From words: the axis or master of a decimal number.
pub(super) fn axis(word: &[u8]) -> Option<u8> {
    decimal(word).map(|number| number.min(MOST_AXIS) as u8)
}

/// From words: whether a minus sign stands before, and what is behind it.
pub(super) fn unsigned(word: &[u8]) -> (bool, &[u8]) {
    match word {
        [b'-', behind @ ..] => (true, behind),
        _ => (false, word),
    }
}

/// From words: a distance, a minus sign for the minus direction.
pub(super) fn signed(word: &[u8]) -> Option<(bool, u32)> {
    let (minus, digits) = unsigned(word);
    Some((minus, decimal(digits)?))
}

/// From words: the quarters that the digits behind a point write, exactly; 21 where they are no whole number of them.
/// Zeros at their end alter nothing. They are not read as f64, which would round the longer ones to a quarter.
fn quarters(digits: &[u8]) -> Result<u32, u8> {
    let zeros = digits.iter().rev().take_while(|&&digit| digit == b'0').count();
    match &digits[..digits.len() - zeros] {
        b"" => Ok(0),
        b"25" => Ok(1),
        b"5" => Ok(2),
        b"75" => Ok(3),
        _ => Err(21),
    }
}

/// From words: the digits before the point and those behind it; without a point a 0 stands behind it.
fn around_point(word: &[u8]) -> (&[u8], &[u8]) {
    match word.iter().position(|&character| character == b'.') {
        Some(point) => (&word[..point], &word[point + 1..]),
        None => (word, b"0"),
    }
}

/// From words: a speed or slope, which is a whole number of quarters, or 21. Each such figure is exact in f64.
pub(super) fn figure(word: &[u8]) -> Option<Result<f64, u8>> {
    let (minus, word) = unsigned(word);
    let (before, behind) = around_point(word);
    let whole = decimal(before)?;
    decimal(behind)?;
    let sign = if minus { -1.0 } else { 1.0 };
    Some(quarters(behind).map(|quarters| sign * (whole as f64 + quarters as f64 / 4.0)))
}
