//! Digits: those of lines, blocks, lists and vectors are all hexadecimal, the first being the highest. A digit that is
//! read tells both value and case (paper 02, 7/14), and whoever uses it follows.

/// Paper 02, 7/14: a digit that was read, its value and whether it is a small letter. Only `read` makes one, and 0-9
/// have no case there: 22 characters, 22 digits, and no second digit stands for a character.
#[derive(Clone, Copy, Debug, PartialEq, Eq)]
pub struct Digit {
    value: u8,
    small: bool,
}

impl Digit {
    /// Lines: 0-9, A-F and a-f are digits, no other character is.
    pub fn read(character: u8) -> Option<Digit> {
        match character {
            b'0'..=b'9' => Some(Digit { value: character - b'0', small: false }),
            b'A'..=b'F' => Some(Digit { value: character - b'A' + 10, small: false }),
            b'a'..=b'f' => Some(Digit { value: character - b'a' + 10, small: true }),
            _ => None,
        }
    }

    /// Lines: the value, 0 to 15.
    pub fn value(self) -> u8 {
        self.value
    }

    /// Paper 02, 7/14: the case; 0-9 are no small letters.
    pub fn is_small(self) -> bool {
        self.small
    }

    /// Paper 02, 7/14: the very character that was read.
    pub fn character(self) -> u8 {
        let capital = digit_character(self.value);
        if self.small {
            capital.to_ascii_lowercase()
        } else {
            capital
        }
    }
}

/// Replies: the value of a digit; letters in capitals only.
pub fn capital_digit_value(character: u8) -> Option<u8> {
    Digit::read(character).filter(|digit| !digit.is_small()).map(Digit::value)
}

/// Lines: the value of a digit; data digits ignore the case (paper 02, 7/14).
pub fn digit_value(character: u8) -> Option<u8> {
    Digit::read(character).map(Digit::value)
}

/// Lines: the number that digits make, 16 of them at most.
pub fn number_of(digits: &[u8]) -> u64 {
    digits.iter().fold(0, |number, &digit| number * 16 + digit as u64)
}

/// Lines: the number that characters write, where `value` takes each of them as a digit.
pub fn number_written(characters: &[u8], value: fn(u8) -> Option<u8>) -> Option<u64> {
    let digits: Option<Vec<u8>> = characters.iter().map(|&character| value(character)).collect();
    digits.map(|digits| number_of(&digits))
}

/// Lines: a digit in capitals.
pub fn digit_character(value: u8) -> u8 {
    if value < 10 {
        b'0' + value
    } else {
        b'A' + (value - 10)
    }
}

/// Lines: the six digits of a 24-bit value, the highest first.
pub fn six_characters(value: u32) -> [u8; 6] {
    let mut characters = [0; 6];
    for (place, character) in characters.iter_mut().enumerate() {
        let shift = 4 * (5 - place);
        *character = digit_character(((value >> shift) & 0xF) as u8);
    }
    characters
}
