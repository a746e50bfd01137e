//! Counters of moves that a station of the other bench make asks for (paper 02, 8/14), and a check of their own: that
//! the positions tell the distances that the text names.

use crate::counted::{add_each, grouped, listed, Named};
use crate::station::{is_move, named, MOVE_LINES};
use std::fmt;

/// Positions of axes 0 to 4.
pub type Positions = [i32; 5];

/// What becomes of a move that began, in the order of `END_NAMES`.
#[derive(Clone, Copy, Debug)]
pub enum End {
    /// It came to its whole end.
    Whole,
    Stopped,
    /// It was left to what else an operator does, took too many ticks, or something came between.
    Left,
}

const END_NAMES: [&str; 3] = ["ended with exactly the distances named", "stopped", "left"];

#[derive(Clone, Debug, Default)]
pub struct Stations {
    /// Commands whose lines were given, by their names, and the first numbers that turned lines of them away.
    commands: Named<String>,
    numbers: Named<u8>,
    ends: [u64; 3],
    /// The first one that became other lines, got a number that it may not get or came to other distances, in words.
    wrong: Option<String>,
}

/// Whether a command may get this number: a move by what keeps any start away, and by 15 where it names no distance.
fn may_get(text: &str, number: u8) -> bool {
    let moves = is_move(text.as_bytes());
    match number {
        0 => !moves || named(text) != [0; 5],
        11..=13 | 16 | 17 => moves,
        15 => moves && named(text) == [0; 5],
        _ => false,
    }
}

impl Stations {
    /// A command that became so many lines, all received, and the first number that turned one away, or 0.
    pub fn command(&mut self, text: &str, lines: usize, number: u8) {
        self.commands.count(text.split(' ').next().unwrap_or_default().to_string());
        if number != 0 {
            self.numbers.count(number);
        }
        let right = if is_move(text.as_bytes()) { MOVE_LINES } else { 1 };
        if lines != right || !may_get(text, number) {
            self.found_wrong(format!("{text} became {lines} lines, which got {number}"));
        }
    }

    fn found_wrong(&mut self, words: String) {
        self.wrong.get_or_insert(words);
    }

    /// A move that began and did not come to its whole end.
    pub fn end(&mut self, end: End) {
        self.ends[end as usize] += 1;
    }

    /// One that did, and the positions that were read before it and behind it.
    pub fn whole(&mut self, text: &str, before: Positions, after: Positions) {
        let named = named(text);
        let right: Positions = std::array::from_fn(|axis| before[axis] + named[axis]);
        if after == right {
            self.end(End::Whole);
        } else {
            self.found_wrong(format!("{text} from positions {before:?} came to {after:?}"));
        }
    }

    /// What is wrong with one of them, in words.
    pub fn wrong(&self) -> Option<&str> {
        self.wrong.as_deref()
    }

    pub fn add(&mut self, more: &Stations) {
        self.commands.add(&more.commands);
        self.numbers.add(&more.numbers);
        add_each(&mut self.ends, &more.ends);
        more.wrong.iter().for_each(|words| self.found_wrong(words.clone()));
    }
}

impl fmt::Display for Stations {
    fn fmt(&self, f: &mut fmt::Formatter) -> fmt::Result {
        write!(f, "  commands of the other make {}: {}", grouped(self.commands.sum()), self.commands.listed())?;
        writeln!(f, "; turned away by {}", self.numbers.listed_with_colons())?;
        let began = grouped(self.ends.iter().sum());
        writeln!(f, "  their moves that began {began}: {}", listed(END_NAMES.iter().zip(self.ends)))
    }
}

#[cfg(test)]
mod tests {
    use super::*;

    #[test]
    fn other_distances_are_found() {
        let mut seen = Stations::default();
        seen.command("LNI X 5, Y -3", 6, 0);
        seen.whole("LNI X 5, Y -3", [1, 1, 7, 0, 0], [6, -2, 7, 0, 0]);
        seen.command("INC Y 0", 6, 15);
        assert_eq!(seen.wrong(), None);
        let told = seen.to_string();
        assert!(told.contains("commands of the other make 2: INC 1, LNI 1; turned away by 15: 1\n"), "{told}");
        assert!(told.contains("began 1: ended with exactly the distances named 1, stopped 0,"), "{told}");
        for after in [[7, -2, 7, 0, 0], [-2, 6, 7, 0, 0], [6, -2, 8, 0, 0], [6, 4, 7, 0, 0]] {
            let mut seen = Stations::default();
            seen.whole("LNI X 5, Y -3", [1, 1, 7, 0, 0], after);
            assert!(seen.wrong().is_some_and(|words| words.starts_with("LNI X 5, Y -3 from ")));
        }
    }

    #[test]
    fn other_lines_and_numbers_are_found() {
        let lines = [("INC X 5", 5, 0), ("INC X 5", 7, 0), ("SPD X 5", 0, 0), ("SST X", 6, 0)];
        let numbers = [("INC X 5", 6, 14), ("INC X 5", 6, 15), ("INC X -0", 6, 0), ("SPD X 5", 1, 11), ("SST X", 1, 4)];
        for (text, lines, number) in lines.into_iter().chain(numbers) {
            let mut seen = Stations::default();
            seen.command(text, lines, number);
            assert_eq!(seen.wrong(), Some(format!("{text} became {lines} lines, which got {number}").as_str()));
        }
    }
}
