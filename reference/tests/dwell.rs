//! Dwell: its length, and what begins, ends and changes it.

mod common;
use common::{accept, in_dwell, on, send, status_after, until_rest};

#[test]
fn length_of_the_dwell() {
    let mut machine = in_dwell();
    assert_eq!(status_after(&mut machine, 499, 0), 1);
    assert_eq!(status_after(&mut machine, 1, 0), 0);
}

#[test]
fn a_stopped_move_has_its_dwell_too() {
    let mut machine = on();
    accept(&mut machine, &["P0000003", "P0A00001", "Q080", "Q09"]);
    assert_eq!(status_after(&mut machine, 1, 0), 9);
    assert_eq!(status_after(&mut machine, 249, 0), 9);
    assert_eq!(status_after(&mut machine, 1, 0), 8);
}

#[test]
fn longest_dwell() {
    let mut machine = on();
    accept(&mut machine, &["P0000001", "P0A03FFF", "Q080", "Q09"]);
    assert_eq!(status_after(&mut machine, 1 + 16_383 * 250 - 1, 0) & 1, 1);
    assert_eq!(status_after(&mut machine, 1, 0) & 1, 0);
}

#[test]
fn without_a_dwell_it_acts_as_a_plain_start() {
    let mut machine = on();
    accept(&mut machine, &["P0400003"]);
    assert_eq!(send(&mut machine, "Q08C"), "S08C0000");
    assert_eq!(machine.status(), 3);
}

#[test]
fn order_9_drops_a_stored_start_and_leaves_the_dwell() {
    let mut machine = in_dwell();
    accept(&mut machine, &["Q088", "Q09"]);
    assert_eq!(machine.status(), 1);
    assert_eq!(status_after(&mut machine, 499, 0), 1);
    assert_eq!((status_after(&mut machine, 500, 0), machine.travels()[0]), (0, 3));
}

#[test]
fn a_plain_start_ends_the_dwell_and_drops_a_stored_one() {
    let mut machine = in_dwell();
    accept(&mut machine, &["Q088", "Q080"]);
    assert_eq!(machine.status(), 3);
    until_rest(&mut machine, 0);
    assert_eq!(machine.status(), 1);
    assert_eq!((status_after(&mut machine, 500, 0), machine.travels()[0]), (0, 3));
}

#[test]
fn a_dwell_set_in_a_dwell_counts_from_the_next_end() {
    let mut machine = in_dwell();
    accept(&mut machine, &["P0A00000", "Q088"]);
    assert_eq!(machine.status(), 1);
    assert_eq!(status_after(&mut machine, 500, 0), 3);
    until_rest(&mut machine, 0);
    assert_eq!(machine.status(), 0);
}
