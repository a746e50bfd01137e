//! Stored starts: those that take effect as the dwell runs out, and those that fail.

mod common;
use common::{accept, in_dwell, number, on, one_tick, send, status_after, ticks, until_rest};
use reference::Machine;

#[test]
fn a_stored_start_begins_in_the_tick_that_ends_the_dwell() {
    let mut machine = in_dwell();
    assert_eq!(send(&mut machine, "Q088"), "S0880000");
    assert_eq!((machine.status(), machine.travels()[0]), (1, 3));
    assert_eq!((status_after(&mut machine, 499, 0), machine.travels()[0]), (1, 3));
    let mut plain = in_dwell();
    ticks(&mut plain, 499, 0);
    accept(&mut plain, &["Q080"]);
    assert_eq!((status_after(&mut machine, 1, 0), machine.travels()[0]), (3, 0));
    assert_eq!(status_after(&mut plain, 1, 0), 3);
    while plain.status() & 2 != 0 {
        assert_eq!(one_tick(&mut plain, 0), one_tick(&mut machine, 0));
        assert_eq!((plain.status(), plain.travels()), (machine.status(), machine.travels()));
    }
}

#[test]
fn distances_of_a_stored_start_are_those_when_it_takes_effect() {
    let mut machine = in_dwell();
    accept(&mut machine, &["Q089", "P0100007", "P0000002"]);
    assert_eq!(status_after(&mut machine, 500, 0), 3);
    until_rest(&mut machine, 0);
    assert_eq!(machine.travels(), [2, 7, 0, 0, 0]);
}

#[test]
fn a_later_stored_start_replaces_the_first() {
    let mut machine = in_dwell();
    accept(&mut machine, &["P0100003", "P0000002", "Q088", "Q089"]);
    assert_eq!(status_after(&mut machine, 500, 0), 3);
}

#[test]
fn a_refused_plain_start_leaves_the_dwell_and_the_stored_one() {
    let mut machine = in_dwell();
    accept(&mut machine, &["Q088"]);
    assert_eq!(number(&mut machine, "Q081"), 14);
    assert_eq!(machine.status(), 5);
    assert_eq!(status_after(&mut machine, 500, 0), 7);
}

#[test]
fn bits_3_and_6_are_cleared_when_it_takes_effect() {
    let mut machine = on();
    accept(&mut machine, &["P0000003", "P0A00001", "Q080", "Q09"]);
    ticks(&mut machine, 1, 0);
    accept(&mut machine, &["Q088"]);
    assert_eq!(machine.status(), 9);
    assert_eq!(status_after(&mut machine, 249, 0), 9);
    assert_eq!(status_after(&mut machine, 1, 0), 3);
}

/// After this line in the dwell, the stored start of master 0 fails with this number in the tick that ends the dwell.
fn fails(line: &str, word: u32, wanted: u8) -> Machine {
    let mut machine = in_dwell();
    accept(&mut machine, &[line, "Q088"]);
    ticks(&mut machine, 499, word);
    let travels = machine.travels();
    let answer = one_tick(&mut machine, word);
    assert_eq!((answer.pulses, answer.number), ([0; 5], wanted));
    assert_eq!(machine.status() & 3, 0);
    assert_eq!(machine.travels(), travels);
    assert_eq!(status_after(&mut machine, 600, word) & 3, 0);
    machine
}

#[test]
fn stored_starts_that_fail() {
    fails("Q0E01000", 0x1000, 12);
    fails("Q0E02000", 0x2000, 13);
    assert_eq!(fails("P0200004", 0, 14).status(), 4);
    fails("P0000000", 0, 15);
    fails("Q0E00001", 1, 16);
    fails("P007FFFF", 0, 17);
}

#[test]
fn a_stored_start_uses_the_word_of_its_own_tick() {
    let mut machine = in_dwell();
    accept(&mut machine, &["Q0E02000", "Q088"]);
    ticks(&mut machine, 499, 0x2000);
    assert_eq!(status_after(&mut machine, 1, 0), 3);
}

#[test]
fn emergency_in_the_tick_that_ends_the_dwell_fails_the_start() {
    let mut machine = in_dwell();
    accept(&mut machine, &["Q0E01000", "Q088"]);
    ticks(&mut machine, 499, 0);
    assert_eq!(one_tick(&mut machine, 0x1000).number, 12);
    assert_eq!(machine.status(), 0x20);
}

#[test]
fn a_start_is_stored_though_it_could_not_begin_now() {
    let mut machine = in_dwell();
    accept(&mut machine, &["P0000000"]);
    assert_eq!(number(&mut machine, "Q08B"), 0);
    assert_eq!(number(&mut machine, "Q085"), 10);
    assert_eq!(number(&mut machine, "Q083"), 15);
}

#[test]
fn a_stored_start_at_a_full_watch_count_begins_and_stops_in_its_tick() {
    let mut machine = on();
    accept(&mut machine, &["P0000003", "P08F4240", "P0900FFF", "P0A03FFF", "P0B1", "Q080"]);
    until_rest(&mut machine, 0);
    accept(&mut machine, &["Q088"]);
    assert_eq!((status_after(&mut machine, 16_383 * 250 - 1, 0), machine.travels()[0]), (1, 3));
    assert_eq!((status_after(&mut machine, 1, 0), machine.travels()[0]), (9, 0));
    assert_eq!(status_after(&mut machine, 16_383 * 250 - 1, 0), 9);
    assert_eq!(status_after(&mut machine, 1, 0), 8);
}
