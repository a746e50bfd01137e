//! Lines for the program desk ("From words" of `docs/PROTOCOL.md`): words, reply blocks, sums and commands of the other
//! bench make, right and wrong.

mod command;
mod figure;
mod long;
mod misspelt;
mod number;
mod odd;
mod program;
mod reply;
mod station;
mod sums;
mod wish;

pub use long::{lengthened, with_zeros};
pub use number::{about, decimal, hexadecimal, spelled, spelled_in_16};
pub use wish::with_identification;

use crate::random::Random;
use crate::touch::Touch;

/// What ends a line, so that no other character is it.
const LINE_FEED: u8 = b'\n';

/// Any byte but the line feed.
fn any_byte(random: &mut Random) -> u8 {
    let byte = random.below(255) as u8;
    byte + (byte >= LINE_FEED) as u8
}

/// A character as damage puts it in: one that means something somewhere, one near that which was there, or any.
fn stray(random: &mut Random, byte: u8) -> u8 {
    let any = any_byte(random);
    let known = random.pick(b"  0123456789ABCDEFabcdefgGUSsRQPWTXYZ.-+,:?@`\r\t\0");
    let near = random.pick(&[byte ^ 0x20, byte ^ 0x80, byte.wrapping_add(1), byte.wrapping_sub(1), byte]);
    match random.pick(&[any, known, known, near]) {
        LINE_FEED => any,
        stray => stray,
    }
}

/// One character is replaced or dropped, or one is put in, anywhere from the front to the end.
pub fn touched(random: &mut Random, mut line: Vec<u8>) -> Vec<u8> {
    let at = random.below(line.len() as u32 + 1) as usize;
    let stray = stray(random, line.get(at).copied().unwrap_or(b'0'));
    let touch = match at < line.len() {
        true => random.pick(&[Touch::Drop, Touch::PutIn, Touch::Replace]),
        false => Touch::PutIn,
    };
    touch.apply(&mut line, at, || stray);
    line
}

/// Words of one of the two tables.
fn form(random: &mut Random) -> String {
    if random.chance(80) {
        command::form(random)
    } else {
        program::form(random)
    }
}

/// The same words or the same block with the identification in the other case, where it is a letter.
pub fn in_other_case(line: &[u8]) -> Option<Vec<u8>> {
    wish::in_other_case(line).or_else(|| reply::in_other_case(line))
}

/// One line without its line feed. Each prints one line, a station's move six.
pub fn line(random: &mut Random) -> Vec<u8> {
    let line = match random.below(110) {
        0..=42 => wish::around(random, command::form),
        43..=53 => program::form(random).into_bytes(),
        54 => wish::around(random, program::form),
        55..=74 => reply::line(random),
        75..=81 => sums::line(random).into_bytes(),
        82..=91 => wish::around(random, misspelt::form),
        92..=95 => long::line(random),
        96..=99 => odd::line(random),
        _ => station::line(random),
    };
    if random.chance(8) {
        touched(random, line)
    } else {
        line
    }
}

#[cfg(test)]
mod tests {
    use super::*;
    use reference::desk::{answer, FORMS};

    fn answered() -> Vec<(Vec<u8>, String)> {
        let mut random = Random::of_item(1, 0, 0);
        let lines = (0..20_000).map(|_| line(&mut random));
        lines.map(|line| (line.clone(), answer(&line))).collect()
    }

    #[test]
    fn no_line_has_a_line_feed() {
        assert!(answered().iter().all(|(line, _)| !line.contains(&LINE_FEED)));
    }

    #[test]
    fn every_answer_comes() {
        let answered = answered();
        let comes = |front: &str| answered.iter().any(|(_, answer)| answer.starts_with(front));
        let numbers = [3, 4, 5, 6, 7, 8, 9, 10, 11, 12, 13, 14, 15, 16, 17, 19, 20, 21, 25, 26, 27, 28, 29];
        assert!(numbers.iter().all(|number| comes(&format!("turned away by {number}: "))));
        let orders =
            ["start", "stop", "clear", "reset", "carry on", "low", "high"].map(|order| format!("accepted: {order}"));
        assert!(orders.iter().all(|order| comes(order)));
        let fronts =
            ["accepted\n", "travel ", "status ", "position ", "inputs ", "pulses ", "master 4", "T ", "D ", "P0B0\n"];
        assert!(fronts.iter().all(|front| comes(front)));
        assert!(["Q0C00000\n", "Q4C00000\n", "Q0C00000F\n", "Q0C00000f\n"].iter().all(|front| comes(front)));
        assert!(FORMS.iter().all(|(_, form)| comes(&format!("? {form}\n"))));
    }
}
