//! Counters of the lines for the program desk and of what they were answered.

mod kind;

use crate::batch::pairs;
use crate::counted::{grouped, Counted, Named};
use crate::identification::AtHost;
use crate::station::Commands;
use crate::words::{in_other_case, with_identification};
use kind::{command_word, kind_of, Kind};
use reference::desk::{answer, OVER_LONG};
use std::fmt;

#[derive(Clone, Debug, Default)]
pub struct Told {
    pub lines: u64,
    /// Of the lines in: over-long ones, empty ones, those with a byte that is no letter, digit, sign or space.
    over_long: u64,
    empty: u64,
    odd: u64,
    /// Lines of the controller by the word that asked for them; those that are silent or have an identification.
    commands: Named<String>,
    silent: u64,
    with_identification: u64,
    numbers: Named<u8>,
    /// Those of `trial` once more, since `ticks` has 3 too.
    trial_numbers: Named<u8>,
    blocks: Named<String>,
    block_numbers: Named<u8>,
    switches: Named<char>,
    pub identified: AtHost,
    pub converted: Commands,
    others: Named<String>,
    questions: Named<String>,
}

/// The character behind a text within a longer one.
fn behind(text: &str, mark: &str) -> Option<char> {
    text.split_once(mark).and_then(|(_, behind)| behind.chars().next())
}

/// Whether words without a line would have one with a numeral as identification.
fn is_none_for_identification(line: &[u8]) -> bool {
    let other = with_identification(line, |_| Some(b'0'));
    other.is_some_and(|line| matches!(kind_of(&line, &answer(&line)), Kind::Line))
}

impl Told {
    /// The counts of lines and of their answers, each ended by a line feed.
    pub fn of(lines: &[Vec<u8>], answers: &[String]) -> Told {
        let mut seen = Told::default();
        lines.iter().zip(answers).for_each(|(line, answer)| seen.count(line, answer.trim_end_matches('\n')));
        seen.identified.other_case(pairs(lines, in_other_case));
        seen
    }

    /// What a line is before it is answered.
    fn count_line(&mut self, line: &[u8]) {
        self.lines += 1;
        self.over_long += (line.len() >= OVER_LONG) as u64;
        self.empty += line.is_empty() as u64;
        self.odd += line.iter().any(|byte| !(b' '..=b'~').contains(byte)) as u64;
    }

    /// A line of the controller; its own characters tell what stood around its words.
    fn count_command(&mut self, line: &[u8], answer: &str) {
        let text = String::from_utf8_lossy(line);
        self.commands.count(command_word(text.strip_prefix("silent ").unwrap_or(&text)).to_string());
        self.silent += (answer.as_bytes()[1] == b'4') as u64;
        if let Some(&identification) = answer.as_bytes().get(8) {
            self.with_identification += 1;
            self.identified.written(identification);
        }
    }

    fn count_block(&mut self, line: &[u8], word: &str, number: Option<u8>, answer: &str) {
        self.blocks.count(word.to_string());
        self.identified.given_without_end(line);
        number.into_iter().for_each(|number| self.block_numbers.count(number));
        behind(answer, "(switch ").into_iter().for_each(|digit| self.switches.count(digit));
    }

    fn count_number(&mut self, line: &[u8], number: u8) {
        self.numbers.count(number);
        match number {
            19 if is_none_for_identification(line) => self.identified.no_line(),
            20 => self.identified.given_without_end(line),
            27..=29 => self.converted.turned_away(line, number),
            _ => {}
        }
        if line.starts_with(b"trial ") {
            self.trial_numbers.count(number);
        }
    }

    /// A block with a small switch digit is no block for the desk, and gets the question mark.
    fn count_question(&mut self, line: &[u8], word: &str) {
        self.questions.count(word.to_string());
        self.identified.given_without_end(line);
    }

    fn count(&mut self, line: &[u8], answer: &str) {
        self.count_line(line);
        match kind_of(line, answer) {
            Kind::Line => self.count_command(line, answer),
            Kind::Converted(lines) => self.converted.converted(line, lines),
            Kind::Number(number) => self.count_number(line, number),
            Kind::Block(word, number) => self.count_block(line, word, number, answer),
            Kind::Other(word) => self.others.count(word.to_string()),
            Kind::Question(word) => self.count_question(line, word),
        }
    }
}

impl Counted for Told {
    fn add(&mut self, more: &Told) {
        self.lines += more.lines;
        self.over_long += more.over_long;
        self.empty += more.empty;
        self.odd += more.odd;
        self.commands.add(&more.commands);
        self.silent += more.silent;
        self.with_identification += more.with_identification;
        self.numbers.add(&more.numbers);
        self.trial_numbers.add(&more.trial_numbers);
        self.blocks.add(&more.blocks);
        self.block_numbers.add(&more.block_numbers);
        self.switches.add(&more.switches);
        self.identified.add(&more.identified);
        self.converted.add(&more.converted);
        self.others.add(&more.others);
        self.questions.add(&more.questions);
    }
}

impl fmt::Display for Told {
    fn fmt(&self, f: &mut fmt::Formatter) -> fmt::Result {
        let g = grouped;
        write!(f, "  lines of {OVER_LONG} characters or more {}, empty {}", g(self.over_long), g(self.empty))?;
        writeln!(f, ", with a byte that is not printed {}", g(self.odd))?;
        let around = format!("silent {}, with an identification {}", g(self.silent), g(self.with_identification));
        writeln!(f, "  answered by a line {}, of these {around}", g(self.commands.sum()))?;
        writeln!(f, "  words that became a line: {}", self.commands.listed())?;
        let of_trials = self.trial_numbers.listed_with_colons();
        writeln!(f, "  numbers of the desk: {}; of these trials: {of_trials}", self.numbers.listed_with_colons())?;
        writeln!(f, "  reply blocks {}: {}", g(self.blocks.sum()), self.blocks.listed())?;
        writeln!(f, "  numbers in reply blocks: {}", self.block_numbers.listed_with_colons())?;
        writeln!(f, "  switches in reply blocks, but 0: {}", self.switches.listed_with_colons())?;
        write!(f, "{}{}", self.identified, self.converted)?;
        writeln!(f, "  program words and sums: {}", self.others.listed())?;
        writeln!(f, "  question marks {}, by the nearest form: {}", g(self.questions.sum()), self.questions.listed())
    }
}
