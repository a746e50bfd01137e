//! Host end and program: the bench program.

use crate::digit::{digit_value, number_written};
use crate::fields::split;
use crate::host::watch_off_line;
use crate::line::{with_line_end, LINE_END};
use crate::machine::{front, Machine, LEAST_REPLY_BUFFER};
use crate::streams::each_line;
use std::io::{self, BufRead, Write};

/// Host end and program: the most ticks of one T line.
pub const MOST_TICKS: u32 = 1_000_000;

/// Host end and program: n is decimal without leading zeros, 1 to 1,000,000.
fn tick_count(characters: &[u8]) -> Option<u32> {
    if characters.is_empty() || characters.len() > 7 || characters[0] == b'0' {
        return None;
    }
    let mut n = 0;
    for &character in characters {
        if !character.is_ascii_digit() {
            return None;
        }
        n = n * 10 + (character - b'0') as u32;
    }
    if n > MOST_TICKS {
        return None;
    }
    Some(n)
}

/// Host end and program: the input word is six digits of either case.
fn input_word(characters: &[u8]) -> Option<u32> {
    if characters.len() != 6 {
        return None;
    }
    number_written(characters, digit_value).map(|word| word as u32)
}

/// Host end and program: `T n hhhhhh` with two single spaces.
pub fn read_tick_line(line: &[u8]) -> Option<(u32, u32)> {
    match split(line)[..] {
        [b"T", n, word] => Some((tick_count(n)?, input_word(word)?)),
        _ => None,
    }
}

/// Host end and program: replies print with a line feed for 0D.
fn print_reply<W: Write>(reply: &[u8], output: &mut W) -> io::Result<()> {
    for &character in reply {
        let printed = if character == LINE_END { b'\n' } else { character };
        output.write_all(&[printed])?;
    }
    Ok(())
}

/// Host end and program: n ticks with one input word; the sums of the signed pulses. Paper 02, 3/14: the block of a W
/// line that comes in one of them is printed, before the sums are.
fn run_ticks<W: Write>(machine: &mut Machine, n: u32, word: u32, output: &mut W) -> io::Result<[i64; 5]> {
    let mut sums = [0; 5];
    let mut buf = [0; LEAST_REPLY_BUFFER];
    for _ in 0..n {
        let answer = machine.tick(word, &mut buf);
        print_reply(front(&buf, answer.len), output)?;
        for (sum, pulse) in sums.iter_mut().zip(answer.pulses) {
            *sum += pulse as i64;
        }
    }
    Ok(sums)
}

/// Host end and program: a line beginning with T prints the sums, or `?` where it has not the form.
fn tick_line<W: Write>(machine: &mut Machine, line: &[u8], output: &mut W) -> io::Result<()> {
    match read_tick_line(line) {
        Some((n, word)) => {
            let s = run_ticks(machine, n, word, output)?;
            writeln!(output, "{} {} {} {} {}", s[0], s[1], s[2], s[3], s[4])
        }
        None => writeln!(output, "?"),
    }
}

/// Host end and program: any other line goes in with 0D for its line feed, and its replies are printed.
fn command_line<W: Write>(machine: &mut Machine, line: &[u8], output: &mut W) -> io::Result<()> {
    let mut buf = [0; LEAST_REPLY_BUFFER];
    for byte in with_line_end(line) {
        let answer = machine.byte(byte, &mut buf);
        print_reply(front(&buf, answer.len), output)?;
    }
    Ok(())
}

/// Host end and program: one line of the input, without its line feed, and what it prints.
pub fn obey<W: Write>(machine: &mut Machine, line: &[u8], output: &mut W) -> io::Result<()> {
    if line.first() == Some(&b'T') {
        tick_line(machine, line, output)
    } else {
        command_line(machine, line, output)
    }
}

/// Host end and program: power-on with switch 0; paper 02, 2/14: the watch is turned off first, its reply dropped.
pub fn opened() -> Machine {
    let (mut machine, _) = Machine::power_on(0);
    for byte in watch_off_line() {
        machine.byte(byte, &mut [0; LEAST_REPLY_BUFFER]);
    }
    machine
}

/// Host end and program: all lines of the input, none read before the opening; the last may lack its line feed.
pub fn run<R: BufRead, W: Write>(input: R, output: &mut W) -> io::Result<()> {
    let mut machine = opened();
    each_line(input, |line| obey(&mut machine, line, output))?;
    output.flush()
}
