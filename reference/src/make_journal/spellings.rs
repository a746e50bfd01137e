//! Stored vectors, J: spellings of numbers that are cut short, longer, or out of range.

use super::entries::{spelled, SHORTEST};
use crate::text::Text;

/// Journal: the places among an entry's seven numbers of ticks, cause and last travel.
const THREE_NUMBERS: [(usize, &str); 3] = [(0, "ticks"), (1, "cause"), (6, "last travel")];

/// Journal: the shortest entry with one of its seven numbers spelled so; each number of it has one group.
fn spelled_so(number: usize, groups: &[u8]) -> Vec<u8> {
    let bytes = spelled(&[SHORTEST]);
    [&bytes[..number], groups, &bytes[number + 1..]].concat()
}

/// Journal: the same, and nothing after that number.
fn ended_so(number: usize, groups: &[u8]) -> Vec<u8> {
    [&spelled(&[SHORTEST])[..number], groups].concat()
}

/// Journal: so many groups, all but the last with this byte.
fn groups(count: usize, byte: u8, last: u8) -> Vec<u8> {
    let mut groups = vec![byte; count];
    groups[count - 1] = last;
    groups
}

/// Journal: a number of one to eight groups, cut short, with a last group of 0, and with every bit set.
pub(super) fn spellings_of_each_count(text: &mut Text) {
    for (number, words) in THREE_NUMBERS {
        text.heading(&format!("reader: {words} of 1 to 8 groups: cut short, last group 0, every bit set"));
        for count in 1..=8 {
            text.journal(0, &ended_so(number, &groups(count, 0x80, 0x80)));
            text.journal(0, &spelled_so(number, &groups(count, 0x81, 0x00)));
            text.journal(0, &spelled_so(number, &groups(count, 0xFF, 0x7F)));
        }
    }
}

/// Journal: ticks 2 to the 45 less 1, ticks 2 to the 45, and the least ticks of seven groups.
const TICKS_ENDS: [[u8; 7]; 3] = [
    [0xFF, 0xFF, 0xFF, 0xFF, 0xFF, 0xFF, 0x07],
    [0x80, 0x80, 0x80, 0x80, 0x80, 0x80, 0x08],
    [0x80, 0x80, 0x80, 0x80, 0x80, 0x80, 0x01],
];

/// Journal: travels -524,287, 524,287, -524,288 and 524,288.
const TRAVEL_ENDS: [[u8; 3]; 4] = [[0xFD, 0xFF, 0x3F], [0xFE, 0xFF, 0x3F], [0xFF, 0xFF, 0x3F], [0x80, 0x80, 0x40]];

/// Journal: the ends of every range and the first values beyond, as the reader meets them.
pub(super) fn ends_of_ranges(text: &mut Text) {
    text.heading("reader: ticks, greatest, one beyond, and the least of seven groups");
    for ticks in TICKS_ENDS {
        text.journal(0, &spelled_so(0, &ticks));
    }
    text.heading("reader: causes 0 to 3, 127 and 128");
    for cause in [&[0][..], &[1], &[2], &[3], &[0x7F], &[0x80, 0x01]] {
        text.journal(0, &spelled_so(1, cause));
    }
    text.heading("reader: travels of each axis, greatest either way and first beyond");
    for number in 2..7 {
        for travel in TRAVEL_ENDS {
            text.journal(0, &spelled_so(number, &travel));
        }
    }
}

/// Journal: numbers are judged one by one, so 24 comes before a later 23.
pub(super) fn nothing_after(text: &mut Text) {
    text.heading("reader: a number that is wrong with nothing after it: 24 before the 23 of the next");
    text.journal(0, &ended_so(0, &[0x00]));
    text.journal(0, &ended_so(0, &TICKS_ENDS[1]));
    text.journal(0, &ended_so(1, &[0x02]));
    for number in 2..7 {
        text.journal(0, &ended_so(number, &TRAVEL_ENDS[2]));
        text.journal(0, &ended_so(number, &[0x82, 0x00]));
    }
    text.heading("reader: a wrong number before one that is cut short, and a seventh group with its top bit set last");
    text.journal(0, &[0x81, 0x00, 0x80]);
    text.journal(0, &[0x01, 0x02, 0x80]);
    text.journal(0, &[0x01, 0x01, 0x80, 0x80, 0x80, 0x80, 0x80, 0x80]);
    text.journal(0, &[0x01, 0x01, 0x80, 0x80, 0x80, 0x80, 0x80, 0x80, 0x80]);
    text.journal(0, &[0x01, 0x01, 0x80, 0x80, 0x80, 0x80, 0x80, 0x80, 0x00]);
}
