//! Stored lists: moves whose remainders and distances have the largest sums (paper 02, 4/14).
//!
//! Before a master pulse the remainder of an axis is m × d modulo M, and the axis pulses where remainder and d together
//! are M or more. A remainder is at most M - 1, and always 0 where d is M. So d = M - 1 has the largest sum, at the
//! second master pulse, where its remainder is M - 1: 2 M - 2, which is 1,048,572 for the longest master. 1,048,573
//! would need d = M with remainder M - 1. 524,287 is prime: in a whole move a d between 0 and M meets every remainder.
//!
//! A move here takes under 1,000,000 ticks and begins with a line, so the watch of power-on stops none of them.

use super::list_lines::{distance_line, FOUR_PULSES};
use crate::text::Text;

/// Shares: the longest distance.
const MOST: i32 = 524_287;

/// Shares: the two distances next to half of the longest.
const HALF_DOWN: i32 = 262_143;
const HALF_UP: i32 = 262_144;

/// Ramp: ticks to each of the first four master pulses of a fast move.
const FIRST_PULSES: [u32; 4] = [156, 65, 50, 42];

/// Ramp: ticks from there to m = 262,142; at 262,144 a distance of M - 2 rests for the second time and one of 2 pulses.
const TO_THE_MIDDLE: u32 = 267_934;

/// Ramp: ticks from m = 262,146 to the one before the last pulse but one of the longest master.
const TO_THE_LAST: u32 = 268_089;

/// Ramp: ticks to the last pulse but one, to two before the last pulse, to that pulse and to one after it.
const LAST_PULSES: [u32; 5] = [1, 154, 1, 1, 1];

/// Paper 02, 4/14: the longest moves, whole and stopped, one of a master that has divisors, and the shortest.
pub(super) fn largest_sums(text: &mut Text) {
    whole_moves(text);
    there_and_back(text);
    exact_sums(text);
    stopped_moves(text);
    shortest_moves(text);
}

/// Lines: the distance lines of a move, below 0 for minus, and its start.
fn start(text: &mut Text, master: u32, distances: [i32; 5]) {
    for (axis, distance) in (0..).zip(distances) {
        text.lines(&[&distance_line(axis, distance < 0, distance.unsigned_abs())]);
    }
    text.lines(&[&format!("Q08{master}")]);
}

/// Ramp: a fast move to its end, read about its first pulses, its middle and its last pulses.
fn to_the_end(text: &mut Text, master_distance: i32) {
    text.read_after_each(&FIRST_PULSES, 0);
    text.read_after(TO_THE_MIDDLE, 0);
    text.read_after_each(&[1; 4], 0);
    // One pulse in every tick there: a pulse less is a tick less.
    text.read_after(TO_THE_LAST - MOST.abs_diff(master_distance), 0);
    text.read_after_each(&LAST_PULSES, 0);
}

/// Shares: switch, master and distances; each axis is master here or in the list after these, and each has M - 1.
const WHOLE: [(u8, u32, [i32; 5]); 4] = [
    (0x00, 0, [MOST, -(MOST - 1), MOST - 2, -HALF_UP, 1]),
    (0x05, 2, [100_000, -HALF_UP, MOST, -(MOST - 2), MOST - 1]),
    (0x09, 3, [-1, 2, MOST - 1, -MOST, -100_000]),
    (0x0E, 4, [HALF_DOWN, 1, 2 - MOST, 1 - MOST, MOST]),
];

/// Shares: the longest moves, one for a list.
fn whole_moves(text: &mut Text) {
    for (switch, master, distances) in WHOLE {
        let words = format!("Largest sums: the longest move to its end, master {master}");
        text.fast_list(switch, switch, &words, &[]);
        start(text, master, distances);
        to_the_end(text, MOST);
        text.lines(&["q08"]);
        text.end();
    }
}

/// Shares: two equal axes are master in turn, and every position comes back to 0.
fn there_and_back(text: &mut Text) {
    let distances = [1 - MOST, -MOST, MOST, HALF_DOWN, 0];
    text.fast_list(0x0B, 0x0B, "Largest sums: the longest move there with master 1 and back with master 2", &[]);
    start(text, 1, distances);
    to_the_end(text, MOST);
    start(text, 2, distances.map(|distance| -distance));
    text.read_after_each(&[221, 536_275, 1, 1], 0);
    text.lines(&["q08"]);
    text.end();
}

/// Shares: 524,286 has divisors, so that remainder and distance are often exactly M.
fn exact_sums(text: &mut Text) {
    let master_distance = MOST - 1;
    let distances = [master_distance / 2, -master_distance / 3, -master_distance, 349_524, 1 - master_distance];
    text.fast_list(0x0F, 0x0F, "Largest sums: a master of 524,286 with its half, its third and two thirds", &[]);
    start(text, 2, distances);
    to_the_end(text, master_distance);
    text.lines(&["q08"]);
    text.end();
}

/// Stops: order 9 leaves the largest remainder, which the next start forgets; a stop in which the largest sum comes.
fn stopped_moves(text: &mut Text) {
    text.fast_list(0x0D, 0x0D, "Largest sums: the longest move stopped by order 9, and read", &[]);
    start(text, 3, [MOST - 1, 2 - MOST, HALF_UP, -MOST, -HALF_DOWN]);
    text.heading("after the first pulse, and a tick later, so that the second comes in the stop");
    text.read_after(156, 0);
    text.read_lines(&["Q09"]);
    text.read_after_each(&[155, 1], 0);
    text.lines(&["Q083"]);
    text.read_after(157, 0);
    text.read_lines(&["Q09"]);
    text.read_after_each(&[135, 1, 20, 1], 0);
    text.heading("before the middle; then a start whose final position would be out of range");
    text.lines(&["Q0B", "Q083"]);
    text.read_after(265_000, 0);
    text.read_lines(&["Q09"]);
    text.read_after_each(&[3_857, 1, 1, 1], 0);
    text.read_after_each(&[8_349, 1, 1], 0);
    text.read_lines(&["q08", "Q083"]);
    text.end();
}

/// Shares: master distances 1, 2 and 3 with every distance up to them.
const SHORTEST: [(u32, [i32; 5]); 5] = [
    (2, [0, 1, -1, 0, 1]),
    (1, [-1, 2, 0, -2, 1]),
    (0, [3, -2, 1, 0, -3]),
    (4, [2, 0, -3, 1, 3]),
    (3, [0, -1, 1, -2, 2]),
];

/// Shares: the shortest masters; only where M is 1 the sum is 2 M - 1.
fn shortest_moves(text: &mut Text) {
    text.fast_list(0x00, 0x00, "Largest sums: masters of 1, 2 and 3 with every distance up to them", &[]);
    for (master, distances) in SHORTEST {
        start(text, master, distances);
        text.read_after_each(&[FOUR_PULSES / 2; 2], 0);
    }
    text.end();
}
