//! The D line of a trial: in every form, with any numbers, damaged, over-long.

use super::{Asked, LAST_MASTER};
use crate::random::Random;
use crate::words::{decimal, hexadecimal, lengthened, spelled, spelled_in_16, touched};
use reference::bench::MOST_TICKS;
use reference::machine::INPUT_WORD_END;

/// As the desk prints it.
fn plain(asked: Asked) -> String {
    format!("D {} {} {:06X}", asked.master, asked.ticks, asked.word)
}

/// With zeros before its numbers and digits of either case; a number may be none.
fn loose(random: &mut Random, asked: Asked) -> String {
    let (master, ticks) = (spelled(random, asked.master.into()), spelled(random, asked.ticks.into()));
    format!("D {master} {ticks} {}", spelled_in_16(random, asked.word.into()))
}

/// Numbers at, next to and far from their bounds.
fn about_bounds(random: &mut Random) -> String {
    let (master, ticks) = (decimal(random, LAST_MASTER), decimal(random, MOST_TICKS));
    format!("D {master} {ticks} {}", hexadecimal(random, INPUT_WORD_END - 1))
}

/// A field too few or too many, or spaces where none belong.
fn formless(random: &mut Random, asked: Asked) -> String {
    let Asked { master, ticks, word } = asked;
    match random.below(10) {
        0 => "D".to_string(),
        1 => "D ".to_string(),
        2 => format!("D {master}"),
        3 => format!("D {master} {ticks}"),
        4 => plain(asked) + " 0",
        5 => plain(asked) + random.pick(&[" ", "\r", "\t", "  "]),
        6 => plain(asked).replacen(' ', "  ", 1),
        7 => format!("D{master} {ticks} {word:06X}"),
        8 => format!("DD {master} {ticks} {word:06X}"),
        _ => format!("D {master} {ticks} {word:06X}").replace(' ', random.pick(&["", "\t", ", "])),
    }
}

/// One character behind the D is replaced, dropped or put in.
fn damaged(random: &mut Random, asked: Asked) -> Vec<u8> {
    let behind = plain(asked).into_bytes().split_off(1);
    [b"D".to_vec(), touched(random, behind)].concat()
}

/// A line that begins with D; mostly it asks for this.
pub fn screen_line(random: &mut Random, asked: Asked) -> Vec<u8> {
    match random.below(100) {
        0..=1 => about_bounds(random).into_bytes(),
        2..=6 => formless(random, asked).into_bytes(),
        7..=11 => damaged(random, asked),
        12..=15 => lengthened(random, plain(asked).into_bytes()),
        16..=39 => loose(random, asked).into_bytes(),
        _ => plain(asked).into_bytes(),
    }
}

#[cfg(test)]
mod tests {
    use super::*;
    use reference::preview::{self, read_trial_line};

    #[test]
    fn most_lines_ask_for_the_trial_and_each_begins_with_d() {
        let mut random = Random::of_item(1, 0, 0);
        let asked = Asked { master: 3, word: 0x2000, ticks: 6_000 };
        let lines: Vec<Vec<u8>> = (0..2_000).map(|_| screen_line(&mut random, asked)).collect();
        assert!(lines.iter().all(|line| line.starts_with(b"D") && !line.contains(&b'\n')));
        let read = preview::Asked { master: 3, ticks: 6_000, word: 0x2000 };
        let right = lines.iter().filter(|line| read_trial_line(line) == Some(read)).count();
        let formless = lines.iter().filter(|line| read_trial_line(line).is_none()).count();
        assert!(right > 1_500 && formless > 100, "{right} and {formless} of 2,000");
    }
}
