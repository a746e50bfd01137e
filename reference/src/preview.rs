//! A dose on screen first: the program `preview`. What the bench program would print it tells in words, as desk does,
//! and a D line tries a start without doing anything of it.

use crate::bench::{obey, opened};
use crate::desk::{answer, decimal, hexadecimal, turned_away, OVER_LONG};
use crate::fields::split;
use crate::machine::Machine;
use crate::streams::each_line_at_once;
use crate::trial::{trial, Trial};
use std::io::{self, BufReader, Read, Write};

/// A dose on screen first: what a line prints that begins with D and has not the form.
pub const OTHER_FORM: &str = "? D 0 1000000 000000\n";

/// Ramp: one tick is 4 µs.
const MICROSECONDS_PER_TICK: u64 = 4;

/// A dose on screen first: a share is told in hundredths of a percent.
const WHOLE_SHARE: u64 = 10_000;

/// A dose on screen first: what a D line asks for.
#[derive(Clone, Copy, Debug, PartialEq, Eq)]
pub struct Asked {
    pub master: u32,
    pub ticks: u32,
    pub word: u32,
}

/// A dose on screen first: `D`, master, ticks and input word with one space between two of them, under 100 characters.
pub fn read_trial_line(line: &[u8]) -> Option<Asked> {
    if line.len() >= OVER_LONG {
        return None;
    }
    match split(line)[..] {
        [b"D", master, ticks, word] => {
            Some(Asked { master: decimal(master)?, ticks: decimal(ticks)?, word: hexadecimal(word)? })
        }
        _ => None,
    }
}

/// A dose on screen first: so many times 4 µs, told in seconds.
fn seconds(ticks: u32) -> String {
    let microseconds = u64::from(ticks) * MICROSECONDS_PER_TICK;
    format!("{}.{:06} s", microseconds / 1_000_000, microseconds % 1_000_000)
}

/// A dose on screen first: the tick of the end and its time, or the ticks asked for and theirs.
fn end_line(asked: Asked, end: u32) -> String {
    match end {
        0 => format!("master {}: does not end in {} ticks, {}\n", asked.master, asked.ticks, seconds(asked.ticks)),
        _ => format!("master {}: ends in tick {end}, {}\n", asked.master, seconds(end)),
    }
}

/// A dose on screen first: a travel and its share of the sum, without what is left over; 0.00 % where no axis moved.
fn wine_line(axis: usize, travel: u32, sum: u64) -> String {
    let share = (u64::from(travel) * WHOLE_SHARE).checked_div(sum).unwrap_or(0);
    format!("wine {axis}: {travel} pulses, {}.{:02} %\n", share / 100, share % 100)
}

/// A dose on screen first: the six lines, or the one of a trial that is turned away.
fn screen(asked: Asked, shown: Trial) -> String {
    if shown.number != 0 {
        return turned_away(shown.number) + "\n";
    }
    let sum = shown.travels.iter().copied().map(u64::from).sum();
    let mut text = end_line(asked, shown.end);
    for (axis, travel) in shown.travels.into_iter().enumerate() {
        text.push_str(&wine_line(axis, travel, sum));
    }
    text
}

/// A dose on screen first: what a line that begins with D prints; the controller is only looked at.
fn trial_lines(machine: &Machine, line: &[u8]) -> String {
    match read_trial_line(line) {
        Some(asked) => screen(asked, trial(machine, asked.master, asked.word, asked.ticks)),
        None => OTHER_FORM.to_string(),
    }
}

/// A dose on screen first: each line that the bench program would print, in words. It prints whole lines alone.
fn bench_lines(machine: &mut Machine, line: &[u8]) -> io::Result<String> {
    let mut printed = Vec::new();
    obey(machine, line, &mut printed)?;
    Ok(printed.split_inclusive(|&byte| byte == b'\n').map(|line| answer(&line[..line.len() - 1])).collect())
}

/// A dose on screen first: all lines of the input, each answered at once; the last may lack its line feed.
pub fn run<R: Read, W: Write>(input: BufReader<R>, output: &mut W) -> io::Result<()> {
    let mut machine = opened();
    each_line_at_once(input, output, |line, output| {
        let text = match line.first() {
            Some(b'D') => trial_lines(&machine, line),
            _ => bench_lines(&mut machine, line)?,
        };
        output.write_all(text.as_bytes())
    })
}
