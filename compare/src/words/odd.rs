//! Empty lines, spaces where none belong, and odd bytes.

use super::{any_byte, form};
use crate::random::Random;

/// Bytes that are no letter, digit or space, and 00 and FF among them.
const ODD_BYTES: [u8; 9] = [0, 9, 11, 13, 31, 127, 128, 160, 255];

fn odd_byte(random: &mut Random) -> u8 {
    let any = any_byte(random);
    let odd = random.pick(&ODD_BYTES);
    random.pick(&[odd, odd, any])
}

/// A space before, behind or within a form.
fn spaced(random: &mut Random) -> Vec<u8> {
    let form = form(random);
    match random.below(4) {
        0 => format!(" {form}"),
        1 => format!("{form} "),
        2 => form.replacen(' ', "  ", 1),
        _ => form.replacen(' ', "\t", 1),
    }
    .into_bytes()
}

/// A form with one to three odd bytes put in, or such a byte in the place of a space.
fn with_odd_bytes(random: &mut Random) -> Vec<u8> {
    let mut line = form(random).into_bytes();
    for _ in 0..random.between(1, 3) {
        let at = random.below(line.len() as u32 + 1) as usize;
        line.insert(at, odd_byte(random));
    }
    if let Some(space) = line.iter().position(|&byte| byte == b' ').filter(|_| random.chance(30)) {
        line[space] = odd_byte(random);
    }
    line
}

fn noise(random: &mut Random) -> Vec<u8> {
    let length = random.between(1, 24);
    (0..length).map(|_| any_byte(random)).collect()
}

pub fn line(random: &mut Random) -> Vec<u8> {
    match random.below(10) {
        0..=1 => Vec::new(),
        2 => vec![b' '; random.between(1, 4) as usize],
        3..=5 => spaced(random),
        6..=7 => with_odd_bytes(random),
        _ => noise(random),
    }
}
