//! Counters of the host end's lines and of what they were answered.

mod converted;
mod identified;

use crate::batch::pairs;
use crate::counted::{Counted, Named};
use crate::identification::AtHost;
use crate::station::Commands;
use crate::vector::in_other_case;
use std::fmt;

/// How many lines have each letter, and how many answers begin with each word of two characters.
#[derive(Clone, Debug, Default)]
pub struct Answers {
    pub lines: u64,
    letters: Named<char>,
    numbers: Named<String>,
    /// Those about a carry-on that are not turned away.
    carry_ons: Named<&'static str>,
    pub identified: AtHost,
    pub converted: Commands,
}

/// A number of the papers at the front of the answers to W, B, C, F, A and J, `--` for the end of a journal, or the
/// question mark.
fn number_of(line: &[u8], answer: &str) -> Option<String> {
    let first = answer.split(' ').next().unwrap_or_default();
    (first == "?" || b"WBCFAJ".contains(&line[0])).then(|| first.to_string())
}

/// A carry-on's line written, its echo read, or the number of one with nothing to carry on.
fn carry_on(line: &[u8], answer: &str) -> Option<&'static str> {
    let fields: Vec<&str> = answer.split(' ').collect();
    match (line, fields.as_slice()) {
        ([b'W', _, _, _, _, _, _, b'1', b'2', ..], ["00", ..]) => Some("written"),
        (_, ["00", "U", _, "26", ..]) => Some("26 read"),
        (_, ["00", "E", _, digits, ..]) if digits.starts_with('C') => Some("echoes read"),
        _ => None,
    }
}

impl Answers {
    /// The counts of lines and of their answers, each ended by a line feed.
    pub fn of(lines: &[Vec<u8>], answers: &[String]) -> Answers {
        let mut seen = Answers::default();
        lines.iter().zip(answers).for_each(|(line, answer)| seen.count(line, answer.trim_end_matches('\n')));
        seen.identified.other_case(pairs(lines, in_other_case));
        seen
    }

    fn count(&mut self, line: &[u8], answer: &str) {
        self.lines += 1;
        self.letters.count(line[0] as char);
        if let Some(number) = number_of(line, answer) {
            self.numbers.count(number);
        }
        carry_on(line, answer).into_iter().for_each(|what| self.carry_ons.count(what));
        identified::count(&mut self.identified, line, answer);
        converted::count(&mut self.converted, line, answer);
    }
}

impl Counted for Answers {
    fn add(&mut self, more: &Answers) {
        self.lines += more.lines;
        self.letters.add(&more.letters);
        self.numbers.add(&more.numbers);
        self.carry_ons.add(&more.carry_ons);
        self.identified.add(&more.identified);
        self.converted.add(&more.converted);
    }
}

impl fmt::Display for Answers {
    fn fmt(&self, f: &mut fmt::Formatter) -> fmt::Result {
        writeln!(f, "  lines: {}", self.letters.listed())?;
        let numbers = self.numbers.listed();
        writeln!(f, "  numbers of W, B, C, F, A and J, ends of journals, and question marks: {numbers}")?;
        writeln!(f, "  of carry-ons: {}", self.carry_ons.listed())?;
        write!(f, "{}{}", self.identified, self.converted)
    }
}
