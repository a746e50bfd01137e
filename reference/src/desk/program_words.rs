//! From words, second table: the line that a host sends first, the master picker, the bench program's T line, and the
//! program preview's D line.

use super::numbers::{decimal, hexadecimal};
use super::Told;
use crate::bench::MOST_TICKS;
use crate::host::{pick_master, watch_off_line};
use crate::line::LINE_END;
use crate::trial;

/// Turned away, 3: the number of an input word over FFFFFF.
const LARGE_WORD: u8 = 3;

/// From words: `opening`, the line of paper 02, 2/14, without its 0D.
fn opening() -> String {
    watch_off_line().iter().take_while(|&&byte| byte != LINE_END).map(|&byte| byte as char).collect()
}

/// From words: `master` and the distances of axes 0 to 4, of any size.
fn master(words: &[&[u8]]) -> Option<String> {
    let distances: Option<Vec<u32>> = words.iter().map(|word| decimal(word)).collect();
    let distances: [u32; 5] = distances?.try_into().ok()?;
    Some(format!("master {}", pick_master(distances)))
}

/// From words: `ticks`; 1 to 1,000,000 of them, any other number has no form.
fn tick_count(word: &[u8]) -> Option<u32> {
    decimal(word).filter(|count| (1..=MOST_TICKS).contains(count))
}

/// From words: the bench program's T line, or 3 for an input word over FFFFFF.
fn tick_line(count: u32, word: u32) -> Told {
    if word > 0xFFFFFF {
        return Err(LARGE_WORD);
    }
    Ok(format!("T {count} {word:06X}"))
}

/// From words: `trial` with the master alone asks for the most ticks, all with the input word 0. Where a word is no
/// number there is no form, whatever the others are.
fn tried(words: &[&[u8]]) -> Option<(u32, u32, u32)> {
    match words {
        [master] => Some((decimal(master)?, MOST_TICKS, 0)),
        [master, ticks] => Some((decimal(master)?, decimal(ticks)?, 0)),
        [master, ticks, word] => Some((decimal(master)?, decimal(ticks)?, hexadecimal(word)?)),
        _ => None,
    }
}

/// From words: the program preview's D line, or 3, 25 or 10, the first that applies.
fn trial_line(master: u32, ticks: u32, word: u32) -> Told {
    trial::check(master, word, ticks)?;
    Ok(format!("D {master} {ticks} {word:06X}"))
}

/// From words: what the words of the second table print.
pub(super) fn told(words: &[&[u8]]) -> Option<Told> {
    match words {
        [b"opening"] => Some(Ok(opening())),
        [b"master", distances @ ..] => master(distances).map(Ok),
        [b"ticks", count] => Some(tick_line(tick_count(count)?, 0)),
        [b"ticks", count, word] => Some(tick_line(tick_count(count)?, hexadecimal(word)?)),
        [b"trial", words @ ..] => tried(words).map(|(master, ticks, word)| trial_line(master, ticks, word)),
        _ => None,
    }
}
