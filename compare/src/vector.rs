//! Lines of `docs/VECTORS.md` for the host end, with fields at their bounds, near them and anywhere.

pub mod block;
mod cases;
mod command;
mod figure;
mod journal;
mod station;

pub use cases::in_other_case;

use crate::random::Random;
use crate::touch::Touch;
use reference::command::LONGEST;

/// A value for a field that is taken from 0 or 1 to `last`: the ends, what is next to them, one in the range, any.
fn near(random: &mut Random, last: u32) -> u32 {
    match random.below(10) {
        0 => random.below(3),
        1 => last,
        2 => last + 1,
        3 => last - random.below(3),
        4 => random.bits() as u32,
        5..=7 => random.spread(last),
        _ => random.between(0, last),
    }
}

/// Five distances, of which some are equal.
fn distances(random: &mut Random) -> String {
    let most = random.pick(&[3, LONGEST, u32::MAX - 1]);
    let (one, other) = (random.below(most), random.below(most));
    let all: Vec<String> = (0..5)
        .map(|_| {
            let any = random.bits() as u32;
            format!(" {:08X}", random.pick(&[0, one, one, one, one + 1, other, other, any]))
        })
        .collect();
    format!("M{}", all.concat())
}

/// A character as damage puts it in.
fn stray(random: &mut Random) -> u8 {
    random.pick(b" 0123456789ABCDEFabcdefGWBMFUVNk+-_?/:@`\r\t")
}

/// A line with one character replaced, dropped or put in. Its letter stays, so that it prints something, and is not D.
fn damaged(random: &mut Random, line: String) -> Vec<u8> {
    let mut line = line.into_bytes();
    let at = random.between(1, line.len() as u32 - 1) as usize;
    let touch = random.pick(&[Touch::Replace, Touch::Drop, Touch::PutIn]);
    touch.apply(&mut line, at, || stray(random));
    line
}

/// In so many of 100 cases a line asks the converter.
const CONVERTED: u32 = 9;

/// A line that asks anything but the converter.
fn other_line(random: &mut Random) -> String {
    match random.below(26) {
        0..=6 => command::line(random),
        7..=12 => block::line(random),
        13..=14 => distances(random),
        15..=17 => figure::read_back(random),
        18 => figure::shown(random),
        19 => figure::pair(random),
        20..=22 => journal::written(random),
        _ => journal::read(random),
    }
}

/// One line without its line feed. Each prints one line.
pub fn line(random: &mut Random) -> Vec<u8> {
    let line = if random.chance(CONVERTED) { station::line(random) } else { other_line(random) };
    if random.chance(2) {
        damaged(random, line)
    } else {
        line.into_bytes()
    }
}
