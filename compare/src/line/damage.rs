//! Lines that went wrong on the way.

use crate::random::Random;
use crate::touch::Touch;

/// A character as damage puts it in: near the right ones, or any byte but the two line ends.
fn stray(random: &mut Random) -> u8 {
    let any = random.below(256) as u8;
    let near = random.pick(b"PQqWTpw04 0123456789ABCDEFabcdefGg/:@`");
    if random.chance(60) || any == b'\n' || any == b'\r' {
        near
    } else {
        any
    }
}

/// A line of stray characters of the given length.
fn strays(random: &mut Random, length: u32) -> Vec<u8> {
    (0..length).map(|_| stray(random)).collect()
}

/// A line with one character dropped, put in or replaced.
fn touched(random: &mut Random, mut line: Vec<u8>) -> Vec<u8> {
    let at = random.below(line.len() as u32) as usize;
    let touch = random.pick(&[Touch::Drop, Touch::PutIn, Touch::Replace]);
    touch.apply(&mut line, at, || stray(random));
    line
}

/// A line that went wrong on the way: touched, cut short, run on, or nothing but noise.
pub fn damaged(random: &mut Random, mut line: Vec<u8>) -> Vec<u8> {
    match random.below(10) {
        0..=5 => touched(random, line),
        6 => {
            line.truncate(random.below(line.len() as u32 + 1) as usize);
            line
        }
        7 => {
            let more = random.pick(&[1, 2, 3, 8, 250, 262]);
            line.extend(strays(random, more));
            line
        }
        8 => {
            let length = random.below(13);
            strays(random, length)
        }
        _ => {
            line[1] = random.pick(b"4012356789AF");
            line
        }
    }
}
