//! Source document 001: the number `n n n n` of a command, in decimal digits.

/// 8/14: a number of this many digits behind its leading zeros fits in 32 bits, and one of more is over every range.
const DIGITS_THAT_FIT: usize = 9;

/// Lines of the other bench make: decimal digits, one or more, with leading zeros or without; of any length, one over
/// every range counting as the greatest of 32 bits.
pub(super) fn number(digits: &[u8]) -> Option<u32> {
    if digits.is_empty() || !digits.iter().all(u8::is_ascii_digit) {
        return None;
    }
    let zeros = digits.iter().take_while(|&&digit| digit == b'0').count();
    let behind = &digits[zeros..];
    if behind.len() > DIGITS_THAT_FIT {
        return Some(u32::MAX);
    }
    Some(behind.iter().fold(0, |number, digit| number * 10 + u32::from(digit - b'0')))
}
