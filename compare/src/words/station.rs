//! Commands of the other bench make as people type them, and what is next to them: reply blocks, words and lines about
//! 100 characters long.

use super::{form, long, touched, wish};
use crate::random::Random;
use crate::station::{any_name, command, near_form, near_name};

/// Names that begin as reply blocks do.
const LIKE_BLOCKS: [&str; 2] = ["SAP", "RDR"];

/// What may stand behind what begins as a reply block does.
const BEHIND: [&str; 12] = ["", "", " ", " X 1", " X 5, Y 5", " 0 0 0 0", " 000012", "0", "00000", "000000", "A", "\r"];

/// Three characters, seldom two or four, as a reply block begins, often capitals all.
fn block_front(random: &mut Random) -> String {
    let switch = random.pick(b"ABCDEFABCDEFG0");
    let rest = [(); 2].map(|()| random.pick(b"AFGPRXZ07a"));
    let front = [random.pick(b"USRs"), switch, rest[0], rest[1]];
    let length = random.pick(&[3, 3, 3, 3, 2, 4]);
    front[..length].iter().copied().map(char::from).collect()
}

/// What is next to reply blocks, which three capitals go before.
fn like_block(random: &mut Random) -> String {
    let front = block_front(random);
    let front = if random.chance(20) { random.pick(&LIKE_BLOCKS) } else { &front };
    format!("{front}{}", random.pick(&BEHIND))
}

/// What is next to words: `LOW 00010`, and others whose first letters are capitals, mostly three.
fn like_words(random: &mut Random) -> String {
    let form = if random.chance(20) { "low 00010".to_string() } else { form(random) };
    let (word, behind) = form.split_once(' ').unwrap_or((&form, ""));
    let capitals = random.pick(&[3, 3, 3, 3, 2, 4]).min(word.len());
    let word = word[..capitals].to_uppercase();
    if behind.is_empty() {
        return word;
    }
    format!("{word} {behind}")
}

/// A line without its 00, which is one too many where it is typed.
pub fn line(random: &mut Random) -> Vec<u8> {
    match random.below(100) {
        0..=40 => command(random).into_bytes(),
        41..=48 => any_name(random).into_bytes(),
        49..=53 => near_name(random).into_bytes(),
        54..=61 => near_form(random).into_bytes(),
        62..=70 => {
            let line = command(random).into_bytes();
            touched(random, line)
        }
        71..=78 => like_block(random).into_bytes(),
        79..=83 => like_words(random).into_bytes(),
        84..=92 => wish::around(random, command),
        _ => {
            let line = command(random).into_bytes();
            long::lengthened(random, line)
        }
    }
}

#[cfg(test)]
mod tests {
    use super::*;
    use reference::desk::answer;

    #[test]
    fn lines_next_to_blocks_and_words_are_both() {
        let mut random = Random::of_item(1, 0, 0);
        let lines: Vec<Vec<u8>> = (0..20_000).map(|_| line(&mut random)).collect();
        let typed = |front: &str, end: &str| {
            lines.iter().any(|line| line.starts_with(front.as_bytes()) && line.ends_with(end.as_bytes()))
        };
        assert!(["SAP X 1", "RDR 000012", "LOW 00010"].iter().all(|line| typed(line, line)));
        assert!(["SPD", "INC", "LNI", "SST"].iter().all(|name| typed(&format!("silent {name} "), "")));
        assert!(["SPD", "INC", "LNI", "SST"].iter().all(|name| typed(name, " as A") || typed(name, " as a")));
        let answers: Vec<String> = lines.iter().map(|line| answer(line)).collect();
        let comes = |front: &str| answers.iter().any(|answer| answer.starts_with(front));
        assert!([20, 27, 28, 29].iter().all(|number| comes(&format!("turned away by {number}: "))));
        assert!(["P0000000\nP01", "P08F4240\n", "Q0900000\n", "? "].iter().all(|front| comes(front)));
        let moved = |line: &Vec<u8>, answer: &String| line.len() == 99 && answer.lines().count() == 6;
        assert!(lines.iter().zip(&answers).any(|(line, answer)| moved(line, answer)));
    }
}
