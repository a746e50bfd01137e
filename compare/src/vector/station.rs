//! `C`: commands of the other bench make with their 00, damaged by one byte, ended otherwise, and any bytes.

use crate::random::Random;
use crate::station::{any_name, command, near_form, near_name};
use crate::touch::Touch;
use crate::words::with_zeros;
use reference::station::NULL;
use reference::vectors::MOST_COMMAND_BYTES;

/// A byte that means something, one near that which was there, or any.
fn stray(random: &mut Random, byte: u8) -> u8 {
    let any = random.below(256) as u8;
    let known = random.pick(b"  XYZxy-+,;.0123456789SPDINCLT\r\n");
    let near = random.pick(&[byte ^ 0x20, byte ^ 0x80, byte.wrapping_add(1), byte.wrapping_sub(1)]);
    random.pick(&[any, known, known, near, NULL])
}

/// One byte is altered or dropped, or one is put in, anywhere from the front to behind the 00.
fn damaged(random: &mut Random, mut bytes: Vec<u8>) -> Vec<u8> {
    let at = random.below(bytes.len() as u32 + 1) as usize;
    let stray = stray(random, bytes.get(at).copied().unwrap_or(NULL));
    let touch = match at < bytes.len() {
        true => random.pick(&[Touch::Drop, Touch::PutIn, Touch::Replace]),
        false => Touch::PutIn,
    };
    touch.apply(&mut bytes, at, || stray);
    bytes
}

fn ended(text: String) -> Vec<u8> {
    [text.as_bytes(), &[NULL]].concat()
}

/// A command without its 00, with two, with one within, or with bytes behind it.
fn otherwise_ended(random: &mut Random, text: String) -> Vec<u8> {
    let within = random.below(text.len() as u32 + 1) as usize;
    let mut bytes = ended(text);
    match random.below(5) {
        0 => {
            bytes.pop();
        }
        1 => bytes.push(NULL),
        2 => bytes.insert(within, NULL),
        3 => bytes.extend(noise(random, 4)),
        _ => bytes.extend(ended(command(random))),
    }
    bytes
}

/// Up to so many bytes, half of them such as commands have.
fn noise(random: &mut Random, most: u32) -> Vec<u8> {
    let count = random.below(most + 1);
    (0..count).map(|_| stray(random, b'X')).collect()
}

/// A command of about as many bytes as a line may have.
fn long(random: &mut Random) -> Vec<u8> {
    let (text, most) = (command(random).into_bytes(), MOST_COMMAND_BYTES as u32 - 1);
    let length = random.between(most - 2, most) as usize;
    [with_zeros(random, text, length), vec![NULL]].concat()
}

fn bytes(random: &mut Random) -> Vec<u8> {
    match random.below(100) {
        0..=42 => ended(command(random)),
        43..=55 => ended(any_name(random)),
        56..=61 => ended(near_name(random)),
        62..=71 => ended(near_form(random)),
        72..=84 => {
            let bytes = ended(command(random));
            damaged(random, bytes)
        }
        85..=91 => {
            let text = if random.chance(80) { command(random) } else { any_name(random) };
            otherwise_ended(random, text)
        }
        92..=94 => long(random),
        95..=98 => noise(random, 12),
        _ => noise(random, MOST_COMMAND_BYTES as u32),
    }
}

/// Bytes that are too many for a line are drawn anew.
pub fn line(random: &mut Random) -> String {
    let mut drawn = bytes(random);
    while drawn.len() > MOST_COMMAND_BYTES {
        drawn = bytes(random);
    }
    let digits: String = drawn.iter().map(|byte| format!("{byte:02X}")).collect();
    format!("C {digits}")
}

#[cfg(test)]
mod tests {
    use super::*;
    use reference::vectors::answer;

    #[test]
    fn every_answer_and_every_length_comes() {
        let mut random = Random::of_item(1, 0, 0);
        let lines: Vec<String> = (0..20_000).map(|_| line(&mut random)).collect();
        let answers: Vec<String> = lines.iter().map(|line| answer(line.as_bytes())).collect();
        let share = |front: &str| answers.iter().filter(|answer| answer.starts_with(front)).count();
        assert!(["00 1 ", "00 6 ", "27 0 ", "28 0 ", "29 0 "].iter().all(|front| share(front) > 1_000));
        assert_eq!(share("?"), 0);
        let length = "C ".len();
        assert!((0..=48).all(|bytes| lines.iter().any(|line| line.len() == length + 2 * bytes)));
    }
}
