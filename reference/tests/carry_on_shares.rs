//! Paper 02, 6/14: the share rule across any number of stops and carry-ons.

mod common;
use common::carried::{end, fast, stopped_after, to_the_end};
use common::sequence::Sequence;
use common::{accept, assert_shares};
use reference::{Entry, Machine};

/// Distance lines of five signed distances.
fn distance_lines(distances: [i32; 5]) -> Vec<String> {
    let digits = |d: i32| d.unsigned_abs() | if d < 0 { 0x80000 } else { 0 };
    (0..5).map(|axis| format!("P0{axis}{:05X}", digits(distances[axis]))).collect()
}

/// A fast controller with these distances, started with this master.
fn started(master: usize, distances: [i32; 5]) -> Machine {
    let mut machine = fast(&[]);
    let lines = distance_lines(distances);
    accept(&mut machine, &lines.iter().map(String::as_str).collect::<Vec<_>>());
    accept(&mut machine, &[&format!("Q08{master}")]);
    machine
}

/// A move stopped after each of these ticks and carried on; all its pulses, and its entries.
fn carried(master: usize, distances: [i32; 5], stops: &[u32]) -> (Vec<[i8; 5]>, Vec<Entry>) {
    let mut machine = started(master, distances);
    let (mut all, mut entries) = (Vec::new(), Vec::new());
    for &ticks in stops {
        let (pulses, entry) = stopped_after(&mut machine, ticks);
        all.extend(pulses);
        entries.push(entry);
        assert_shares(machine.travels(), distances.map(i32::unsigned_abs), master);
        accept(&mut machine, &["Q0C"]);
    }
    let (pulses, entry) = to_the_end(&mut machine, 0);
    all.extend(pulses);
    entries.push(entry);
    assert_eq!((machine.travels(), machine.positions()), (distances.map(i32::unsigned_abs), distances));
    (all, entries)
}

/// Stopped and carried on or not, a move sends the same pulses in the same order, and all its last ones together.
fn the_same_pulses(master: usize, distances: [i32; 5], stops: &[u32]) -> Vec<Entry> {
    let (whole, _) = carried(master, distances, &[]);
    let (pulses, entries) = carried(master, distances, stops);
    assert_eq!(pulses, whole, "{distances:?}");
    assert_eq!(pulses.len(), distances[master].unsigned_abs() as usize);
    assert_eq!(pulses.last().unwrap().map(i32::from), distances.map(i32::signum));
    assert!(entries[..stops.len()].iter().all(|entry| entry.cause == 1));
    assert_eq!((entries[stops.len()].cause, entries[stops.len()].travels), (0, distances));
    entries
}

/// Two carry-ons and the whole end. With slope a, a stop after n ticks grows the phase by a × n × n: 4,095 × 156 × 156
/// is one pulse of 50,000,000 and no second.
#[test]
fn five_two_and_minus_three() {
    let entries = the_same_pulses(0, [5, 2, -3, 0, 0], &[156, 156]);
    let entry = |ticks, cause, travels| Entry { ticks, cause, travels };
    assert_eq!(entries[..2], [entry(312, 1, [1, 0, 0, 0, 0]), entry(312, 1, [2, 0, -1, 0, 0])]);
    assert_eq!(entries[2].travels, [5, 2, -3, 0, 0]);
    let entries = the_same_pulses(0, [5, 2, -3, 0, 0], &[0, 156, 0, 110, 156, 0, 111, 0, 150]);
    let masters: Vec<i32> = entries.iter().map(|entry| entry.travels[0]).collect();
    assert_eq!(masters, [0, 1, 1, 1, 2, 2, 3, 3, 4, 5]);
}

/// A stop after every few ticks; each carry-on begins its phase anew, so none of these comes to a pulse by itself.
#[test]
fn stops_that_come_to_no_pulse() {
    let mut machine = started(4, [3, -2, 1, 0, -4]);
    for _ in 0..50 {
        assert_eq!(stopped_after(&mut machine, 110).1, Entry { ticks: 220, cause: 1, travels: [0; 5] });
        accept(&mut machine, &["Q0C"]);
    }
    assert_eq!(end(&mut machine, 0).travels, [3, -2, 1, 0, -4]);
}

#[test]
fn crooked_moves_of_every_master() {
    let mut sequence = Sequence(0x9E37_79B9_7F4A_7C15);
    for round in 0..40 {
        let master = round % 5;
        let distances: [i32; 5] = std::array::from_fn(|axis| {
            let d = if axis == master { 997 } else { sequence.below(998) as i32 };
            if sequence.below(2) == 0 {
                -d
            } else {
                d
            }
        });
        let stops: Vec<u32> = (0..sequence.below(6)).map(|_| sequence.below(700) as u32).collect();
        the_same_pulses(master, distances, &stops);
    }
}

/// The longest master with 100,000 and minus 99,999, stopped four times: what a new start would have dropped is there.
#[test]
fn the_longest_master() {
    let distances = [524_287, 100_000, -99_999, -524_286, 1];
    let entries = the_same_pulses(0, distances, &[3_000, 100_001, 0, 77_777]);
    assert!(entries.windows(2).all(|two| two[0].travels[0] <= two[1].travels[0]));
    assert_eq!(entries[1].travels, entries[2].travels);
    let m = entries[1].travels[0] as i64;
    assert_eq!(entries[1].travels[1] as i64, m * 100_000 / 524_287);
    assert_eq!(entries[1].travels[2] as i64, -(m * 99_999 / 524_287));
}
