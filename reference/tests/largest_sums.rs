//! Paper 02, 4/14: the stored lists of the largest sums of a remainder and a distance, pulse by pulse.

mod common;
use common::followed::Move;
use common::stored_lists::{followed_by_ticks, played, stored_list};
use common::sums::{lists, moves, remainder, sum, whole_part, MOST};
use reference::Entry;

/// Paper 02, 4/14: a remainder and a distance together never exceed this.
const NEVER_EXCEEDED: u64 = 1_048_573;

/// The largest sum that a move can have: d is M - 1, and so is its remainder after the first master pulse.
const LARGEST: u64 = 1_048_572;

/// The travels that the pulses since the start add up to are the whole parts of m × d / M.
fn assert_whole_parts(latest: &Move) {
    let travels = latest.travels();
    let (m, master_distance) = (travels[latest.master] as u64, latest.distances[latest.master] as u64);
    for (travel, distance) in travels.into_iter().zip(latest.distances) {
        assert_eq!(travel as u64, whole_part(m, distance as u64, master_distance), "{m} {distance}");
    }
}

/// In a tick the master sends one pulse or none, so every m from 1 to the move's end is met.
#[test]
fn after_every_tick_the_pulses_sent_are_the_whole_parts() {
    for list in lists() {
        followed_by_ticks(&list, |followed| assert_whole_parts(followed.latest.as_ref().unwrap()));
    }
}

fn entry(ticks: u64, cause: u8, travels: [i32; 5]) -> Entry {
    Entry { ticks, cause, travels }
}

/// A fast move has m = tick - 6,105 from tick 12,210 on; it brakes from m = M - 6,105 on, for 12,210 ticks. Stopped at
/// u = n × a with n 156 and 157 it takes as many ticks more, from 50,000,000 on 12,211 for 6,105 pulses.
#[test]
fn entries_of_the_longest_moves() {
    let whole = [
        entry(536_497, 0, [524_287, -524_286, 524_285, -262_144, 1]),
        entry(536_497, 0, [100_000, -262_144, 524_287, -524_285, 524_286]),
        entry(536_497, 0, [-1, 2, 524_286, -524_287, -100_000]),
        entry(536_497, 0, [262_143, 1, -524_285, -524_286, 524_287]),
        entry(536_497, 0, [-524_286, -524_287, 524_287, 262_143, 0]),
        entry(536_497, 0, [524_286, 524_287, -524_287, -262_143, 0]),
        entry(536_496, 0, [262_143, -174_762, -524_286, 349_524, -524_285]),
    ];
    let stopped = [
        entry(312, 1, [0, 0, 0, -1, 0]),
        entry(314, 1, [1, -1, 1, -2, 0]),
        entry(277_211, 1, [264_999, -264_998, 132_500, -265_000, -132_499]),
    ];
    let moves = moves();
    let entries: Vec<Entry> = moves.iter().map(|(_, entry)| *entry).collect();
    assert_eq!(entries[..7], whole);
    assert_eq!(entries[7..10], stopped);
    let shortest = [[0, 1, -1, 0, 1], [-1, 2, 0, -2, 1], [3, -2, 1, 0, -3], [2, 0, -3, 1, 3], [0, -1, 1, -2, 2]];
    assert_eq!(entries[10..].iter().map(|entry| entry.travels).collect::<Vec<_>>(), shortest);
    assert_eq!(moves.iter().map(|(ended, _)| ended.master).collect::<Vec<_>>()[..7], [0, 2, 3, 4, 1, 2, 2]);
}

/// The travels that each `R` of the one list whose heading begins so reads.
fn readings(begins: &str) -> Vec<[u32; 5]> {
    let mut read = Vec::new();
    played(&stored_list(begins), |_| {}, |machine| read.push(machine.travels()));
    read
}

/// M - 1 rests at the first pulse alone, M - 2 there and at 262,144, where 2 has its first pulse, and 1 has its only
/// pulse at the last. Above half of M an axis has two pulses in a row at the end, below it none before the third.
#[test]
fn readings_stand_about_the_first_the_middle_and_the_last_pulses() {
    let read = readings("Largest sums: the longest move to its end, master 0");
    assert_eq!(read[..4], [[1, 0, 0, 0, 0], [2, 1, 1, 1, 0], [3, 2, 2, 1, 0], [4, 3, 3, 2, 0]]);
    assert_eq!(read[5..7], [[262_143, 262_142, 262_142, 131_071, 0], [262_144, 262_143, 262_142, 131_072, 0]]);
    assert_eq!(read[9], [524_285, 524_284, 524_283, 262_142, 0]);
    assert_eq!(read[10..13], [[524_286, 524_285, 524_284, 262_143, 0]; 3]);
    assert_eq!(read[13..], [[524_287, 524_286, 524_285, 262_144, 1]; 3]);
    let read = readings("Largest sums: the longest move to its end, master 3");
    assert_eq!(read[5..7], [[0, 0, 262_142, 262_143, 49_999], [0, 1, 262_143, 262_144, 50_000]]);
    assert_eq!(read[12..14], [[0, 1, 524_285, 524_286, 99_999], [1, 2, 524_286, 524_287, 100_000]]);
    let read = readings("Largest sums: the longest move to its end, master 4");
    assert_eq!(read[..4].iter().map(|travels| travels[0]).collect::<Vec<_>>(), [0, 0, 1, 1]);
    // Stopped: the middle comes in the stop, and the last pulse of it a tick before the end.
    let read = readings("Largest sums: the longest move stopped");
    assert_eq!(read[12..15].iter().map(|travels| travels[3]).collect::<Vec<_>>(), [262_143, 262_143, 262_144]);
    assert_eq!(read[16..19].iter().map(|travels| travels[3]).collect::<Vec<_>>(), [264_999, 265_000, 265_000]);
}

/// The sums of an axis at the master pulses that a move has sent.
fn sums(ended: &Move, d: u32) -> impl Iterator<Item = u64> {
    let (sent, master_distance) = (ended.travels()[ended.master] as u64, ended.distances[ended.master] as u64);
    (0..sent).map(move |m| sum(m, d as u64, master_distance))
}

#[test]
fn the_largest_sum_of_the_stored_lists_is_the_largest_there_is() {
    let moves = moves();
    let largest = |ended: &Move| ended.distances.iter().flat_map(|&d| sums(ended, d)).max().unwrap();
    let met: Vec<u64> = moves.iter().map(|(ended, _)| largest(ended)).collect();
    assert!(met.iter().all(|&sum| sum < NEVER_EXCEEDED));
    assert_eq!(met[..6], [LARGEST; 6]);
    // 524,286: 2 less. Stopped before the second pulse: that of d = M; later: the largest, in the stop.
    assert_eq!(met[6..10], [LARGEST - 2, MOST, LARGEST, LARGEST]);
    // 2 M - 1, 2 M - 2, 2 M - 2, ..
    assert_eq!(met[10..], [1, 2, 4, 4, 2]);
}

/// 524,287 is prime: the whole move leads an axis through every remainder, with every sum from d to M - 1 + d.
#[test]
fn an_axis_of_the_longest_move_meets_every_remainder_once() {
    for (ended, _) in &moves()[..6] {
        for d in ended.distances {
            let mut met: Vec<u64> = sums(ended, d).collect();
            met.sort_unstable();
            match d as u64 {
                0 | MOST => assert!(met.iter().all(|&sum| sum == d as u64)),
                d => assert!(met.into_iter().eq(d..d + MOST)),
            }
        }
    }
}

/// 2 M - 1 needs d = M with remainder M - 1, but M × m leaves no remainder; so only M = 1 has it.
#[test]
fn no_sum_is_twice_the_master_distance_less_one() {
    for master_distance in 1..=120 {
        for d in 0..=master_distance {
            let largest = (0..master_distance).map(|m| sum(m, d, master_distance)).max().unwrap();
            assert!(largest < 2 * master_distance);
            assert_eq!(largest == 2 * master_distance - 1, master_distance == 1 && d == 1);
            assert_eq!(largest == 2 * master_distance - 2, d + 1 == master_distance || (master_distance, d) == (2, 2));
        }
    }
    assert_eq!(2 * MOST - 1, NEVER_EXCEEDED);
    assert!((0..MOST).all(|m| remainder(m, MOST, MOST) == 0));
    assert!((1..MOST).all(|m| sum(m, MOST - 1, MOST) == LARGEST + 1 - m));
}
