//! Stored lists: the lines of the text, letter by letter, and the steps that many lists share.

use crate::coded::travel_digits;
use crate::text::Text;

/// Lines: the fastest speed and the steepest slope.
pub(super) const FAST: [&str; 2] = ["P08F4240", "P0900FFF"];

/// Ticks in which a fast move of 1 pulse ends.
pub(super) const ONE_PULSE: u32 = 240;

/// Ticks in which a fast move of 4 pulses ends.
pub(super) const FOUR_PULSES: u32 = 460;

/// Lines: the distance line of an axis.
pub(super) fn distance_line(axis: u32, minus: bool, pulses: u32) -> String {
    format!("P0{axis}{:05X}", travel_digits(minus, pulses))
}

/// Lines: the same line with 4 as its second character, where it is 0.
pub(super) fn silent(line: &str) -> String {
    match line.get(1..2) {
        Some("0") => format!("{}4{}", &line[..1], &line[2..]),
        _ => line.to_string(),
    }
}

impl Text {
    /// Stored lists, S: a list begins, under a heading.
    pub(super) fn list(&mut self, first: u8, last: u8, words: &str) {
        self.heading(words);
        self.plain(&format!("S {first:02X} {last:02X}"));
    }

    /// Stored lists, S and L: a list of fast moves begins, with further lines.
    pub(super) fn fast_list(&mut self, first: u8, last: u8, words: &str, lines: &[&str]) {
        self.list(first, last, words);
        self.lines(&FAST);
        self.lines(lines);
    }

    /// Stored lists, L: lines of text.
    pub(super) fn lines(&mut self, lines: &[&str]) {
        for line in lines {
            self.plain(&format!("L {line}"));
        }
    }

    /// Stored lists, L: a line replied and silent.
    pub(super) fn replied_and_silent(&mut self, line: &str) {
        self.lines(&[line, &silent(line)]);
    }

    /// Stored lists, B: a received byte with so many zero bytes lent.
    pub(super) fn byte(&mut self, byte: u8, lent: u8) {
        self.plain(&format!("B {byte:02X} {lent:02X}"));
    }

    /// Stored lists, B: received bytes with so many zero bytes lent each.
    pub(super) fn bytes(&mut self, bytes: &[u8], lent: u8) {
        for &byte in bytes {
            self.byte(byte, lent);
        }
    }

    /// Stored lists, T: ticks with one input word.
    pub(super) fn ticks(&mut self, count: u32, word: u32) {
        self.plain(&format!("T {count:06X} {word:08X}"));
    }

    /// Stored lists, K: one tick with so many zero bytes lent.
    pub(super) fn lent_tick(&mut self, word: u32, lent: u8) {
        self.plain(&format!("K {word:08X} {lent:02X}"));
    }

    /// Stored lists, R: the readings.
    pub(super) fn readings(&mut self) {
        self.plain("R");
    }

    /// Stored lists, T and R: ticks, then the readings.
    pub(super) fn read_after(&mut self, count: u32, word: u32) {
        self.ticks(count, word);
        self.readings();
    }

    /// Stored lists, T and R: the readings after each of so many ticks, all with one input word.
    pub(super) fn read_after_each(&mut self, counts: &[u32], word: u32) {
        for &count in counts {
            self.read_after(count, word);
        }
    }

    /// Stored lists, T and R: the readings after each of so many ticks with this input word.
    pub(super) fn read_runs(&mut self, runs: &[(u32, u32)]) {
        for &(count, word) in runs {
            self.read_after(count, word);
        }
    }

    /// Stored lists, L and R: lines, then the readings.
    pub(super) fn read_lines(&mut self, lines: &[&str]) {
        self.lines(lines);
        self.readings();
    }

    /// Stored lists, E: the list is played.
    pub(super) fn end(&mut self) {
        self.readings();
        self.plain("E");
    }

    /// Ramp: a start, stopped by order before its first tick; one tick ends it and the dwell runs from there.
    pub(super) fn stop_into_dwell(&mut self, start: &str, word: u32) {
        self.lines(&[start, "Q09"]);
        self.read_after(1, word);
    }

    /// Ramp: a start of master 0 stopped into its dwell, and lines that are taken there.
    pub(super) fn lines_in_dwell(&mut self, word: u32, lines: &[&str]) {
        self.stop_into_dwell("Q080", word);
        self.lines(lines);
    }
}
