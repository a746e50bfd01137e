//! `silent ` before a form and ` as ` with an identification behind it, good and bad.

use super::any_byte;
use crate::identification::{identification, near, other_case};
use crate::random::Random;

/// What is near `silent ` and is not, or is it twice.
const NEAR_SILENT: [&str; 8] =
    ["Silent ", "SILENT ", "silent", "silent  ", "silent silent ", " silent ", "silent\t", "silnt "];

/// What is near ` as ` with an identification and is none, or is one twice.
const NEAR_AS: [&str; 15] = [
    " as",
    " as ",
    " as  ",
    " as AB",
    " as ab",
    " as aA",
    " as A ",
    " as a ",
    "  as A",
    " as  A",
    " asA",
    " As A",
    " as A as B",
    " as as",
    " silent",
];

/// Other characters that are no identification.
const OTHERS: &[u8] = b"zZoOlI \0";

/// What stands before the identification.
const AS: &[u8] = b" as ";

fn before(random: &mut Random) -> &'static str {
    match random.below(100) {
        0..=19 => "silent ",
        20 => random.pick(&NEAR_SILENT),
        _ => "",
    }
}

fn behind(random: &mut Random) -> Vec<u8> {
    let character = match random.below(100) {
        0..=21 => identification(random),
        22..=23 => near(random),
        24 => random.pick(OTHERS),
        25 => any_byte(random),
        26..=27 => return random.pick(&NEAR_AS).into(),
        _ => return Vec::new(),
    };
    [AS, &[character][..]].concat()
}

/// Words with the character behind ` as ` another one.
pub fn with_identification(line: &[u8], other: impl Fn(u8) -> Option<u8>) -> Option<Vec<u8>> {
    match line.split_last() {
        Some((&character, front)) if front.ends_with(AS) => Some([front, &[other(character)?]].concat()),
        _ => None,
    }
}

/// The same words with the identification in the other case, where it is a letter.
pub fn in_other_case(line: &[u8]) -> Option<Vec<u8>> {
    with_identification(line, other_case)
}

/// A form with what stands before it and behind it.
pub fn around(random: &mut Random, form: fn(&mut Random) -> String) -> Vec<u8> {
    let before = before(random).as_bytes();
    let form = form(random);
    [before, form.as_bytes(), &behind(random)].concat()
}
