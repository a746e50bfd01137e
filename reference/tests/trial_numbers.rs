//! Paper 02, 5/14: what turns a trial away, in its order; nothing else is shown then, and nothing altered.

mod common;
use common::{accept, line, number, on, one_tick, under_way};
use reference::{trial, Machine, Trial};

/// The number of a trial, which shows zeros beside it and leaves the controller.
fn turned_away(machine: &Machine, master: u32, word: u32, ticks: u32) -> u8 {
    let before = machine.clone();
    let shown = trial(machine, master, word, ticks);
    assert_eq!(*machine, before);
    assert_eq!(shown, Trial { number: shown.number, ..Trial::default() });
    shown.number
}

/// 3, then 25, then 10, then the start's own, whatever the state.
#[test]
fn the_order_before_the_start() {
    for (machine, own) in [(on(), 15), (under_way(0), 11)] {
        for (word, is_3) in [(0xFFFFFF, false), (0x1000000, true), (u32::MAX, true)] {
            for (ticks, is_25) in [(0, false), (1_000_000, false), (1_000_001, true), (u32::MAX, true)] {
                for (master, is_10) in [(0, false), (4, false), (5, true), (256, true), (u32::MAX, true)] {
                    let numbers = [(is_3, 3), (is_25, 25), (is_10, 10), (true, own)];
                    let first = numbers.into_iter().find(|(applies, _)| *applies).unwrap().1;
                    assert_eq!(turned_away(&machine, master, word, ticks), first, "{master} {word:X} {ticks}");
                }
            }
        }
    }
}

/// All causes at once, taken away one by one; each number is that of the start line, but bit 2 is not set.
#[test]
fn the_order_of_the_start() {
    let mut machine = on();
    accept(&mut machine, &["P0000005", "P0100002", "P0900FFF", "P08F4240", "Q080"]);
    (0..100).for_each(|_| _ = one_tick(&mut machine, 0));
    accept(&mut machine, &["Q0E03001"]);
    one_tick(&mut machine, 0x3001);
    assert_eq!(turned_away(&machine, 1, 0, 10), 11);
    common::until_rest(&mut machine, 0x3001);
    assert_eq!(turned_away(&machine, 1, 0, 10), 12);
    one_tick(&mut machine, 0x2001);
    accept(&mut machine, &["Q0B"]);
    assert_eq!(turned_away(&machine, 1, 0, 10), 13);
    one_tick(&mut machine, 1);
    assert_eq!(turned_away(&machine, 1, 0, 10), 14);
    assert_eq!(machine.status() & 4, 0);
    assert_eq!(turned_away(&machine, 0, 0, 10), 16);
    assert_eq!((number(&mut machine, "Q081"), machine.status() & 4), (14, 4));
    accept(&mut machine, &["P0000000", "P0100000"]);
    assert_eq!(turned_away(&machine, 0, 0, 10), 15);
}

/// 17 at both ends of the positions; 16 goes before it.
#[test]
fn final_positions() {
    let mut machine = on();
    accept(&mut machine, &["P0080002", "P0900FFF", "P08F4240", "Q080"]);
    common::until_rest(&mut machine, 0);
    accept(&mut machine, &["P00FFFFE"]);
    assert_eq!(trial(&machine, 0, 0, 1).number, 0);
    accept(&mut machine, &["P00FFFFF"]);
    assert_eq!(turned_away(&machine, 0, 0, 1), 17);
    accept(&mut machine, &["Q0E00002"]);
    one_tick(&mut machine, 2);
    assert_eq!(turned_away(&machine, 0, 0, 1), 16);
}

/// A half-received line is dropped from the copy alone: whatever it is, the trial is the same, and it goes on.
#[test]
fn half_received_lines() {
    let mut whole = on();
    accept(&mut whole, &["P0000001", "P0900FFF", "P08F4240"]);
    for half in [&b"Q"[..], b"Q08", b"X4", b"P00000", b"0123456789ABCDEF", b"\n", b"Q480"] {
        let mut machine = whole.clone();
        for &byte in half {
            assert_eq!(machine.byte(byte, &mut [0; 120]).number, 0);
        }
        assert_ne!(machine, whole);
        let before = machine.clone();
        assert_eq!(trial(&machine, 0, 0, 1_000), trial(&whole, 0, 0, 1_000));
        assert_eq!(trial(&machine, 0, 0, 1_000).end, 207);
        assert_eq!(machine, before);
        let (rest, all) = (line(&mut machine, b""), line(&mut whole.clone(), half));
        assert_eq!(rest, all);
    }
}

/// A trial that 11 turns away zeroes no watch count of the controller: the next tick stops the move.
#[test]
fn the_watch_count_goes_on() {
    let mut machine = on();
    accept(&mut machine, &["P0000002", "P0800001", "Q080"]);
    (0..999_999).for_each(|_| _ = one_tick(&mut machine, 0));
    assert_eq!(turned_away(&machine, 0, 0, 10), 11);
    assert_eq!(turned_away(&machine, 5, 0, 10), 10);
    one_tick(&mut machine, 0);
    assert_eq!(machine.status() & 8, 8);
}
