//! From words: the program `desk`, the host end for people. It answers each line with one line, a station's move with
//! six.

mod asked;
mod commands;
mod nearest;
mod numbers;
mod program_words;
mod replies;
mod sentences;
mod station;
mod sums;

use crate::fields::split;
use crate::streams::each_line_at_once;
use asked::{asked, Asked};
use std::io::{self, BufReader, Read, Write};

pub use nearest::FORMS;
pub(crate) use numbers::{decimal, hexadecimal};
pub(crate) use sentences::turned_away;
pub use sentences::SENTENCES;

/// From words, rule 1: the least number of characters of a line that has no form for its length.
pub const OVER_LONG: usize = 100;

/// From words: what a line in one of the forms prints, without its last line feed, or the number that turns it away.
type Told = Result<String, u8>;

/// From words, rule 5: words in a form of the two tables; those of the second have neither `silent` nor `as`.
fn told_of_words(line: &[u8]) -> Option<Told> {
    let asked = asked(line);
    let words = split(asked.body);
    match asked {
        Asked { silent: false, identification: None, .. } => {
            program_words::told(&words).or_else(|| commands::told(&asked, &words))
        }
        _ => commands::told(&asked, &words),
    }
}

/// From words: what a line is, the first rule that applies; `None` for anything else.
fn told(line: &[u8]) -> Option<Told> {
    if line.len() >= OVER_LONG {
        return None;
    }
    if station::begins_as_command(line) {
        return Some(station::told(line));
    }
    if replies::begins_as_block(line) {
        return Some(replies::in_words(line));
    }
    sums::passed_on(line).map(Ok).or_else(|| told_of_words(line))
}

/// From words: what one line prints, its last line feed included. This is total: every line has an answer.
pub fn answer(line: &[u8]) -> String {
    let mut text = match told(line) {
        Some(Ok(text)) => text,
        Some(Err(number)) => turned_away(number),
        None => nearest::question(asked(line).body),
    };
    text.push('\n');
    text
}

/// From words: all lines of the input, each answered at once; the last may lack its line feed.
pub fn run<R: Read, W: Write>(input: BufReader<R>, output: &mut W) -> io::Result<()> {
    each_line_at_once(input, output, |line, output| output.write_all(answer(line).as_bytes()))
}
