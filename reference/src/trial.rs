//! Paper 02, 5/14: a blend tried without wine. What a plain start and so many ticks would leave, done on a copy.

use crate::bench::MOST_TICKS;
use crate::line::LINE_END;
use crate::machine::{Machine, INPUT_WORD_END, LEAST_REPLY_BUFFER};

/// Turned away, 3: the number of an input word over FFFFFF, checked first.
const LARGE_WORD: u8 = 3;

/// Paper 02, 5/14: the number of too many ticks, checked after 3.
const MANY_TICKS: u8 = 25;

/// Paper 02, 5/14: the number of a master over 4, checked before the start's own.
const NO_MASTER: u8 = 10;

/// Lines: the highest master.
const LAST_MASTER: u32 = 4;

/// Stops: the status bit of a running move.
const MOVING: u32 = 2;

/// Paper 02, 5/14: the number that turns the trial away, or 0; then the tick of the end, counted from 1, or 0 where it
/// is not reached, with travels and positions after the last tick. With a number all the rest is 0.
#[derive(Clone, Copy, Debug, Default, PartialEq, Eq)]
pub struct Trial {
    pub number: u8,
    pub end: u32,
    pub travels: [u32; 5],
    pub positions: [i64; 5],
}

impl Trial {
    /// Paper 02, 5/14: a trial that is turned away has nothing else to show.
    fn turned_away(number: u8) -> Trial {
        Trial { number, ..Trial::default() }
    }
}

/// Paper 02, 5/14: what is checked before the start's own numbers, in this order.
pub fn check(master: u32, word: u32, ticks: u32) -> Result<(), u8> {
    if word >= INPUT_WORD_END {
        return Err(LARGE_WORD);
    }
    if ticks > MOST_TICKS {
        return Err(MANY_TICKS);
    }
    if master > LAST_MASTER {
        return Err(NO_MASTER);
    }
    Ok(())
}

/// Paper 02, 5/14: the plain start line goes in byte by byte; its number, or 0.
fn start(copy: &mut Machine, master: u32) -> u8 {
    let mut number = 0;
    for byte in [b'Q', b'0', b'8', b'0' + master as u8, LINE_END] {
        number = copy.byte(byte, &mut [0; LEAST_REPLY_BUFFER]).number;
    }
    number
}

/// Paper 02, 5/14: so many ticks with one word; the first after which no move runs, or 0. All are run, those behind the
/// end too, so that nothing has to be known of them.
fn run_ticks(copy: &mut Machine, word: u32, ticks: u32) -> u32 {
    let mut end = 0;
    let mut buf = [0; LEAST_REPLY_BUFFER];
    for tick in 1..=ticks {
        copy.tick(word, &mut buf);
        if end == 0 && copy.status() & MOVING == 0 {
            end = tick;
        }
    }
    end
}

/// Paper 02, 5/14: what a plain start with this master and so many ticks with this word would leave. The controller is
/// only looked at: a half-received line is dropped from the copy alone.
pub fn trial(machine: &Machine, master: u32, word: u32, ticks: u32) -> Trial {
    if let Err(number) = check(master, word, ticks) {
        return Trial::turned_away(number);
    }
    let mut copy = machine.between_lines();
    let number = start(&mut copy, master);
    if number != 0 {
        return Trial::turned_away(number);
    }
    let end = run_ticks(&mut copy, word, ticks);
    Trial { number, end, travels: copy.travels(), positions: copy.positions().map(i64::from) }
}
