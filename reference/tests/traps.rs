//! Each trap that the paper names.

mod common;
use common::{accept, number, on, send, status_after, ticks, under_way, until_rest};
use reference::share::share;

#[test]
fn shares_are_not_rounded_to_nearest() {
    assert_eq!(share(3, 3, 5), 1);
    assert_eq!(share(4, 3, 5), 2);
    assert_eq!(share(999, 999, 1_000), 998);
    assert_eq!(share(524_286, 524_286, 524_287), 524_285);
}

#[test]
fn position_reset_keeps_travel() {
    let mut machine = under_way(0);
    let travels = machine.travels();
    assert!(travels[0] > 0 && travels[1] > 0);
    assert_eq!(send(&mut machine, "Q0B"), "S0B00000");
    assert_eq!(machine.travels(), travels);
    assert_eq!(machine.positions(), [0; 5]);
    until_rest(&mut machine, 0);
    assert_eq!(machine.travels(), [1_000, 400, 0, 0, 0]);
    assert_eq!(machine.positions(), [1_000 - travels[0] as i32, travels[1] as i32 - 400, 0, 0, 0]);
    accept(&mut machine, &["Q0B"]);
    assert_eq!(machine.travels(), [1_000, 400, 0, 0, 0]);
}

#[test]
fn an_idle_axis_is_never_blocked() {
    let mut machine = on();
    accept(&mut machine, &["P0000005", "P0180000", "P0200000", "Q0D003FC", "Q080"]);
    assert_eq!(machine.status(), 3);
    accept(&mut machine, &["P08F4240"]);
    assert_eq!(status_after(&mut machine, 1, 0), 3);
    until_rest(&mut machine, 0);
    assert_eq!((machine.travels()[0], machine.status()), (5, 0));
}

#[test]
fn emergency_stays_held_while_its_input_is_active() {
    let mut machine = on();
    accept(&mut machine, &["P0000005", "Q0E01000"]);
    assert_eq!(status_after(&mut machine, 1, 0x1000), 0x20);
    accept(&mut machine, &["Q0B"]);
    assert_eq!(machine.status(), 0x20);
    assert_eq!(status_after(&mut machine, 1, 0), 0x20);
    assert_eq!(number(&mut machine, "Q080"), 12);
    accept(&mut machine, &["Q0B"]);
    assert_eq!(machine.status(), 0);
    assert_eq!(number(&mut machine, "Q080"), 0);
}

#[test]
fn a_disabled_emergency_input_frees_the_hold_at_a_reset() {
    let mut machine = on();
    accept(&mut machine, &["Q0E01000"]);
    ticks(&mut machine, 1, 0x1000);
    accept(&mut machine, &["Q0E00000"]);
    assert_eq!(machine.status(), 0x20);
    accept(&mut machine, &["Q0B"]);
    assert_eq!(machine.status(), 0);
    assert_eq!(status_after(&mut machine, 1, 0x1000), 0);
}

#[test]
fn emergency_with_both_settings_is_always_active() {
    let mut machine = on();
    accept(&mut machine, &["Q0E01000", "Q0D01000"]);
    for word in [0, 0x1000] {
        ticks(&mut machine, 1, word);
        accept(&mut machine, &["Q0B"]);
        assert_eq!(machine.status(), 0x20);
    }
}
