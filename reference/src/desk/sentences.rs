//! From words: the sentence of each number.

/// From words: the sentences of numbers 1 to 29, in this order.
pub const SENTENCES: [&str; 29] = [
    "the switch is over 15 or equal to 12",
    "a reply buffer is under 120 bytes",
    "an input word is over FFFFFF",
    "under 2 or over 9 characters",
    "the first character is not P, Q, q or W",
    "the second character is not 0 or 4",
    "a digit or the identification is not 0-9, A-F or a-f",
    "no code, or one that the letter has not",
    "too few or too many digits for the code",
    "a value is out of its range",
    "a move runs",
    "emergency is held",
    "the sensor is active",
    "an axis is longer than the master",
    "the master's distance is 0",
    "an axis is blocked",
    "a final position is out of range",
    "a line buffer is under 10 bytes",
    "no line has this value",
    "this is no reply block",
    "a figure is not exact or out of range",
    "no space for the whole entry",
    "the journal ends within an entry",
    "a number of the entry is out of its range or longer than it need be",
    "more than 1,000,000 ticks",
    "there is nothing to carry on",
    "no MD5230D command, or not in its form",
    "an MD5230D command that this bench lacks",
    "a speed of 0 or over 250,000 pps, or a distance over 524,287",
];

/// From words: a number from 1 to 29 with its sentence behind it.
pub(crate) fn turned_away(number: u8) -> String {
    format!("turned away by {number}: {}", SENTENCES[number as usize - 1])
}
