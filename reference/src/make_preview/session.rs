//! A dose on screen first: a session under way.

use crate::make_desk::lines::Lines;

/// A dose on screen first: silent lines and ticks that leave the controller at rest and fast, with positions and status
/// 0 and nothing else set, whatever was done before. The short move at the end leaves no dwell.
const REST: [&str; 21] = [
    "Q49",
    "Q4D00000",
    "Q4E00000",
    "T 13000 000000",
    "Q4B",
    "Q4A",
    "P4A00000",
    "P4B0",
    "P4C00000",
    "P48F4240",
    "P4900FFF",
    "P4100000",
    "P4200000",
    "P4300000",
    "P4400000",
    "P4000001",
    "Q480",
    "T 300 000000",
    "Q4B",
    "P4000000",
    "Q06",
];

/// A dose on screen first: the lines so far.
pub(super) struct Session(Lines);

impl Session {
    /// No line yet.
    pub(super) fn begun() -> Session {
        Session(Lines::begun())
    }

    /// A line of any bytes but the line feed.
    pub(super) fn bytes(&mut self, line: &[u8]) {
        self.0.bytes(line);
    }

    /// A line for each of these.
    pub(super) fn each(&mut self, lines: &[&str]) {
        self.0.each(lines);
    }

    /// A fresh beginning.
    pub(super) fn rest(&mut self) {
        self.each(&REST);
    }

    /// A T line.
    pub(super) fn ticks(&mut self, count: u32, word: u32) {
        self.0.line(&format!("T {count} {word:06X}"));
    }

    /// A D line.
    pub(super) fn trial(&mut self, master: u32, ticks: u32, word: u32) {
        self.0.line(&format!("D {master} {ticks} {word:06X}"));
    }

    /// A trial with all readings before it and after it.
    pub(super) fn trial_between_readings(&mut self, master: u32, ticks: u32, word: u32) {
        self.each(&["q08"]);
        self.trial(master, ticks, word);
        self.each(&["q08"]);
    }

    /// A trial, then what it tried: the start, as many ticks with that word, and all readings.
    pub(super) fn trial_and_dose(&mut self, master: u32, ticks: u32, word: u32) {
        self.trial(master, ticks, word);
        self.0.line(&format!("Q08{master}"));
        self.ticks(ticks, word);
        self.each(&["q08"]);
    }

    /// The whole text, with one more line that lacks its line feed.
    pub(super) fn ended_by(self, line: &str) -> Vec<u8> {
        self.0.ended_by(line)
    }
}
