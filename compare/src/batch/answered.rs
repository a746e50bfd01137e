//! The answers to a batch. The reference tells the whole answer to each line, mostly one line, to a station's move at
//! the desk six; a program is to print just these, one behind the other.

use super::{text_of, Batch};
use crate::program::END_OF_OUTPUT;

/// A line too many shows behind its answer alone: from so many lines before that place on each is asked on its own.
const BEFORE: usize = 8;

/// A batch with its text, and the reference's whole answer to each line, its line feeds included.
pub struct Answered<'a> {
    pub batch: Batch,
    pub lines: &'a [Vec<u8>],
    pub text: &'a [u8],
    pub told: &'a [String],
}

/// What a program prints on a text.
type Prints<'a> = &'a dyn Fn(&[u8]) -> Vec<u8>;

/// What the reference tells.
pub fn told(lines: &[Vec<u8>], answer: fn(&[u8]) -> String) -> Vec<String> {
    lines.iter().map(|line| answer(line)).collect()
}

/// How many of the answers an output begins with, one behind the other, and what comes behind them.
fn begun<'o>(output: &'o [u8], told: &[String]) -> (usize, &'o [u8]) {
    let mut rest = output;
    for (at, answer) in told.iter().enumerate() {
        match rest.strip_prefix(answer.as_bytes()) {
            Some(behind) => rest = behind,
            None => return (at, rest),
        }
    }
    (told.len(), rest)
}

/// An answer in one line, and how many lines it has unless it is one that ends with a line feed.
fn shown(answer: &[u8]) -> String {
    let lines: Vec<String> = answer.split_inclusive(|&byte| byte == b'\n').map(shown_line).collect();
    match lines.as_slice() {
        [] => END_OF_OUTPUT.to_string(),
        [line] => line.clone(),
        lines => format!("{} lines: {}", lines.len(), lines.join(" / ")),
    }
}

fn shown_line(line: &[u8]) -> String {
    match line.strip_suffix(b"\n") {
        Some(line) => line.escape_ascii().to_string(),
        None => format!("{} (no line feed)", line.escape_ascii()),
    }
}

/// As many lines at the front of an output as an answer has.
fn as_many<'o>(output: &'o [u8], answer: &str) -> &'o [u8] {
    let lines = output.split_inclusive(|&byte| byte == b'\n').take(answer.lines().count());
    &output[..lines.map(<[u8]>::len).sum()]
}

impl Answered<'_> {
    /// A line and the answers to it that differ, in words.
    fn report(&self, at: usize, name: &str, other: &str) -> String {
        let (number, line, right) = (at + 1, self.lines[at].escape_ascii(), shown(self.told[at].as_bytes()));
        format!(", line {number}: {line}\n{:<11}{other}\nreference: {right}", format!("{name}:"))
    }

    /// The first line about a place that is answered otherwise on its own too, and that answer.
    fn alone(&self, place: usize, prints: Prints) -> Option<(usize, Vec<u8>)> {
        let about = place.saturating_sub(BEFORE)..self.lines.len().min(place + 1);
        let answers = about.map(|at| (at, prints(&text_of(&self.lines[at..=at]))));
        answers.into_iter().find(|(at, answer)| answer != self.told[*at].as_bytes())
    }

    /// Whether a program prints the answers on the text; else in words the seed, the first line that it answers
    /// otherwise, and both answers.
    fn check(&self, name: &str, prints: Prints) -> Result<(), String> {
        let output = prints(self.text);
        let (at, rest) = begun(&output, self.told);
        if at == self.told.len() && rest.is_empty() {
            return Ok(());
        }
        let place = format!("DIFFERENCE: seed {}, batch {}", self.batch.seed, self.batch.index);
        let words = match (self.alone(at, prints), self.told.get(at)) {
            (Some((line, other)), _) => self.report(line, name, &shown(&other)),
            (None, Some(right)) => {
                self.report(at, name, &format!("{}, in the batch alone", shown(as_many(rest, right))))
            }
            (None, None) => format!(", behind the last line: {name} {}", rest.escape_ascii()),
        };
        Err(place + &words)
    }

    /// Whether the proved program and the reference's print the answers on the text, or the difference in words.
    pub fn compare(&self, proved: Prints, reference: Prints) -> Result<(), String> {
        self.check("proved", proved)?;
        self.check("reference's program", reference)
    }
}

#[cfg(test)]
mod tests {
    use super::*;
    use reference::desk::answer;

    const LINES: [&str; 5] = ["stop", "INC X 5", "travel 2", "INC Y -5", "SST X"];
    const MOVE: &str = "P0000005 / P0100000 / P0200000 / P0300000 / P0400000 / Q0800000";

    /// What is said of a desk that prints this.
    fn said(desk: impl Fn(&[u8]) -> String) -> Result<(), String> {
        let lines = LINES.map(|line| line.as_bytes().to_vec());
        let (batch, text) = (Batch { seed: 1, index: 2, lines: LINES.len() }, text_of(&lines));
        let answered = Answered { batch, lines: &lines, text: &text, told: &told(&lines, answer) };
        answered.check("proved", &|text| desk(text).into_bytes())
    }

    fn right(text: &[u8]) -> String {
        text.split_inclusive(|&byte| byte == b'\n').map(|line| answer(&line[..line.len() - 1])).collect()
    }

    /// A line too few or too many is told with the line that it answers, and shifts none of the later ones.
    #[test]
    fn another_count_of_lines_is_found() {
        assert_eq!(said(right), Ok(()));
        let place = "DIFFERENCE: seed 1, batch 2, line 2: INC X 5";
        let five = said(|text| right(text).replacen("P0400000\n", "", 1)).unwrap_err();
        let cut = MOVE.replace("P0400000 / ", "");
        assert_eq!(five, format!("{place}\nproved:    5 lines: {cut}\nreference: 6 lines: {MOVE}"));
        let seven = said(|text| right(text).replacen("Q0800000\n", "Q0800000\nQ0200000\n", 1)).unwrap_err();
        assert_eq!(seven, format!("{place}\nproved:    7 lines: {MOVE} / Q0200000\nreference: 6 lines: {MOVE}"));
        let none = said(|text| right(text).replacen("Q0200000\n", "", 1)).unwrap_err();
        assert!(none.ends_with("line 3: travel 2\nproved:    (end of output)\nreference: Q0200000"), "{none}");
        let last = said(|text| right(text).replace("Q0900000\n", "Q0900000\n\n")).unwrap_err();
        assert!(last.ends_with("line 1: stop\nproved:    2 lines: Q0900000 / \nreference: Q0900000"), "{last}");
    }

    #[test]
    fn another_answer_is_found_in_its_line() {
        let other = said(|text| right(text).replace("Q0200000", "?")).unwrap_err();
        assert!(other.ends_with("line 3: travel 2\nproved:    ?\nreference: Q0200000"), "{other}");
        let cut = said(|text| right(text).trim_end().to_string()).unwrap_err();
        assert!(cut.contains("line 1: stop\nproved:    Q0900000 (no line feed)\n"), "{cut}");
        let later = said(|text| right(text).replace("Q0810000\nQ0900000\n", "Q0810000\n20\n")).unwrap_err();
        assert!(later.contains("line 5: SST X\nproved:    20, in the batch alone\nreference: Q0900000"), "{later}");
        let more = said(|text| right(text).replace("Q0810000\nQ0900000\n", "Q0810000\nQ0900000\nend")).unwrap_err();
        assert!(more.ends_with("batch 2, behind the last line: proved end"), "{more}");
    }
}
