//! Forms whose first word is misspelt: a letter dropped, doubled, in capitals or exchanged; first letters; other words.

use super::form as right_form;
use crate::random::Random;

/// Another letter, or a character in its place.
fn letter(random: &mut Random) -> u8 {
    random.pick(b"abcdefghijklmnopqrstuvwxyzSTRPDWLHOEICM-5?#")
}

/// One letter is wrong.
fn slip(random: &mut Random, word: &mut Vec<u8>) {
    let at = random.below(word.len() as u32) as usize;
    let next = (at + 1) % word.len();
    match random.below(5) {
        0 => {
            word.remove(at);
        }
        1 => word.insert(at, word[at]),
        2 => word[at].make_ascii_uppercase(),
        3 => word.swap(at, next),
        _ => word[at] = letter(random),
    }
}

fn some_letters(random: &mut Random, most: u32) -> Vec<u8> {
    let count = random.between(1, most);
    (0..count).map(|_| letter(random)).collect()
}

/// A word in its place: misspelt, with the first letters of the right one, in capitals, or another.
fn misspelt(random: &mut Random, mut word: Vec<u8>) -> Vec<u8> {
    match random.below(10) {
        0..=5 => slip(random, &mut word),
        6..=7 => {
            word.truncate(random.between(1, word.len() as u32) as usize);
            word.extend(some_letters(random, 3));
        }
        8 => word.make_ascii_uppercase(),
        _ => word = some_letters(random, 9),
    }
    word
}

/// A form with another first word; at times nothing is behind it, or what is behind it follows at once.
pub fn form(random: &mut Random) -> String {
    let form = right_form(random);
    let (word, behind) = form.split_once(' ').unwrap_or((&form, ""));
    let word = misspelt(random, word.as_bytes().to_vec());
    let word: String = word.into_iter().map(char::from).collect();
    match random.below(10) {
        0 => word,
        1 => format!("{word}{behind}"),
        2 => format!("{word} {word} {behind}"),
        _ if behind.is_empty() => word,
        _ => format!("{word} {behind}"),
    }
}
