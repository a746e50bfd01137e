//! `B`: reply blocks in every form, damaged by one character, and with a small letter where capitals stay.

use super::near;
use crate::identification::{mostly, small_letter, PLACES};
use crate::random::Random;
use crate::touch::Touch;
use reference::command::ON_SETTING_BITS;
use reference::vectors::MOST_READER_BYTES;

/// The five digits after the code of an S block.
fn order_digits(random: &mut Random, code: u32) -> u32 {
    let (any, bit) = (random.below(1 << 20), 1 << random.below(20));
    match code {
        6 => near(random, 127) % (1 << 20),
        8 => random.below(16) << 16 | random.pick(&[0, any & 0xFFFF]),
        0xD | 0xE => any & ON_SETTING_BITS | random.pick(&[0, 0, 0, bit]),
        _ => random.pick(&[any, any, 0, 0x7FFFF, 0x80000, 0xFFFFF]),
    }
}

/// The numbers of lines end with these, those between them being no line's.
const LAST_NUMBERS: [u32; 2] = [17, 26];

/// The letter and the six digits of a block.
fn content(random: &mut Random) -> (u8, u32) {
    let (code, any) = (random.below(16), random.below(1 << 20));
    let last = random.pick(&LAST_NUMBERS);
    match random.below(4) {
        0 => (b'U', near(random, last) % (1 << 24)),
        1 => (b'S', code << 20 | order_digits(random, code)),
        2 => (b's', random.below(6) << 20 | random.pick(&[0, 1, 0x7FFFF, 0x80000, 0xFFFFF, any, any])),
        _ => (b'R', near(random, 0xFF_FFFF) % (1 << 24)),
    }
}

/// A block whose fields may be out of their ranges, with its 0D.
pub fn block(random: &mut Random) -> Vec<u8> {
    let (letter, number) = content(random);
    let mut block = vec![letter, random.digit()];
    block.extend(format!("{number:06X}").bytes());
    if random.chance(50) {
        block.push(mostly(random));
    }
    block.push(b'\r');
    block
}

/// A small letter as switch digit or among the six digits: mostly a capital made small, so that nothing else is wrong.
pub fn with_small_digit(random: &mut Random, mut block: Vec<u8>) -> Vec<u8> {
    let capitals: Vec<usize> = PLACES.filter(|&place| block[place].is_ascii_uppercase()).collect();
    if capitals.is_empty() || random.chance(30) {
        let place = random.between(PLACES.start as u32, PLACES.end as u32 - 1) as usize;
        block[place] = small_letter(random);
    } else {
        block[random.pick(&capitals)].make_ascii_lowercase();
    }
    block
}

/// A byte near the one that was there, or any.
fn touched(random: &mut Random, byte: u8) -> u8 {
    let any = random.below(256) as u8;
    let digit = random.digit();
    random.pick(&[any, digit, byte ^ 0x20, byte.wrapping_add(1), byte.wrapping_sub(1), b'\r', b'\n', b'G', b'g'])
}

fn damage(random: &mut Random, block: &mut Vec<u8>) {
    let at = random.below(block.len() as u32) as usize;
    let byte = touched(random, block[at]);
    let (replaced, end) = ((Touch::Replace, at), block.len());
    let all = [(Touch::Drop, at), (Touch::PutIn, at), (Touch::PutIn, end), replaced, replaced, replaced];
    let (touch, at) = random.pick(&all);
    touch.apply(block, at, || byte);
}

fn noise(random: &mut Random) -> Vec<u8> {
    let length = random.below(MOST_READER_BYTES as u32 + 1);
    (0..length).map(|_| random.below(256) as u8).collect()
}

/// A block, whole, with a small digit or damaged.
fn spelled(random: &mut Random) -> Vec<u8> {
    let mut block = block(random);
    match random.below(100) {
        0..=9 => return with_small_digit(random, block),
        10..=44 => damage(random, &mut block),
        _ => {}
    }
    block
}

pub fn line(random: &mut Random) -> String {
    let mut bytes = if random.chance(97) { spelled(random) } else { noise(random) };
    bytes.truncate(MOST_READER_BYTES);
    let spelled: Vec<String> = bytes.iter().map(|byte| format!("{byte:02X}")).collect();
    format!("B {}", spelled.concat())
}
