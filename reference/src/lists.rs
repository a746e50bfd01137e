//! Stored lists: a list of calls is gathered line by line and played to a fresh controller, once for each switch.

mod play;

use crate::fields::{digits, eight_digits, printed, run_lines, split, two_digits};
use crate::line::with_line_end;
use crate::machine::LEAST_REPLY_BUFFER;
use std::io::{self, BufRead, Write};

pub use play::{entry_digest, play};

/// Stored lists: the most calls of a list.
pub const MOST_CALLS: usize = 4_096;

/// Stored lists: one call of a list.
#[derive(Clone, Copy, Debug, PartialEq, Eq)]
pub enum Call {
    /// A received byte with so many zero bytes lent.
    Byte { byte: u8, lent: u8 },
    /// So many ticks with one input word, each with 120 bytes lent.
    Ticks { count: u32, word: u32 },
    /// One tick with so many zero bytes lent.
    Tick { word: u32, lent: u8 },
    /// The readings.
    Readings,
}

/// Stored lists: what is gathered, with the first and the last switch.
#[derive(Clone, Debug, Default, PartialEq, Eq)]
pub struct List {
    pub first: u8,
    pub last: u8,
    pub calls: Vec<Call>,
}

/// Stored lists: the calls of `L text`, each character and then 0D, each with 120 zero bytes lent.
fn line_calls(text: &[u8]) -> Vec<Call> {
    let lent = LEAST_REPLY_BUFFER as u8;
    with_line_end(text).map(|byte| Call::Byte { byte, lent }).collect()
}

/// Stored lists: the text of `L text`, all bytes up to the line feed, at least one.
fn line_text(line: &[u8]) -> Option<&[u8]> {
    line.strip_prefix(b"L ").filter(|text| !text.is_empty())
}

impl List {
    /// Stored lists: gathers calls; a line that would go past 4,096 calls gathers nothing.
    fn gather(&mut self, calls: &[Call]) -> Option<String> {
        if self.calls.len() + calls.len() > MOST_CALLS {
            return None;
        }
        self.calls.extend_from_slice(calls);
        Some(String::new())
    }

    /// Stored lists: `S hh hh` forgets what was gathered, and sets the first and the last switch.
    fn begin(&mut self, first: &[u8], last: &[u8]) -> Option<String> {
        *self = List { first: two_digits(first)?, last: two_digits(last)?, calls: Vec::new() };
        Some(String::new())
    }

    /// Stored lists: `B hh hh` gathers a received byte with so many zero bytes lent.
    fn gather_byte(&mut self, byte: &[u8], lent: &[u8]) -> Option<String> {
        self.gather(&[Call::Byte { byte: two_digits(byte)?, lent: two_digits(lent)? }])
    }

    /// Stored lists: `T hhhhhh hhhhhhhh` gathers so many ticks with this input word.
    fn gather_ticks(&mut self, count: &[u8], word: &[u8]) -> Option<String> {
        self.gather(&[Call::Ticks { count: digits(count, 6)? as u32, word: eight_digits(word)? }])
    }

    /// Stored lists: `K hhhhhhhh hh` gathers one tick with this input word and so many zero bytes lent.
    fn gather_tick(&mut self, word: &[u8], lent: &[u8]) -> Option<String> {
        self.gather(&[Call::Tick { word: eight_digits(word)?, lent: two_digits(lent)? }])
    }

    /// Stored lists: `E` plays the list for each switch and prints switch and digest.
    fn play_all(&self) -> String {
        let mut text = String::new();
        for switch in self.first..=self.last {
            text.push_str(&format!("{switch:02X} {:08X}\n", play(switch, &self.calls)));
        }
        text
    }

    /// Stored lists: one line in one of the forms, or `None`.
    fn obey(&mut self, line: &[u8]) -> Option<String> {
        if let Some(text) = line_text(line) {
            return self.gather(&line_calls(text));
        }
        match split(line)[..] {
            [b"S", first, last] => self.begin(first, last),
            [b"B", byte, lent] => self.gather_byte(byte, lent),
            [b"T", count, word] => self.gather_ticks(count, word),
            [b"K", word, lent] => self.gather_tick(word, lent),
            [b"R"] => self.gather(&[Call::Readings]),
            [b"E"] => Some(self.play_all()),
            _ => None,
        }
    }

    /// Stored lists: what one line prints.
    pub fn take_line(&mut self, line: &[u8]) -> String {
        printed(line, |line| self.obey(line))
    }
}

/// Stored lists: the whole program.
pub fn run<R: BufRead, W: Write>(input: R, output: &mut W) -> io::Result<()> {
    let mut list = List::default();
    run_lines(input, output, |line| list.take_line(line))
}
