//! Numbers 12 to 17: starts, and the checking order.

mod common;
use common::refused::refused;
use common::{accept, number, on, one_tick, send, ticks, until_rest};

#[test]
fn number_12() {
    let mut machine = on();
    accept(&mut machine, &["P0000005", "Q0D01000"]);
    one_tick(&mut machine, 0);
    assert_eq!(refused(&mut machine, b"Q080", 12), "U000000C");
    assert_eq!(refused(&mut machine, b"Q0880000A", 12), "U000000CA");
}

#[test]
fn number_13() {
    let mut machine = on();
    accept(&mut machine, &["P0000005", "Q0D02000"]);
    assert_eq!(number(&mut machine, "Q080"), 13);
    assert_eq!(refused(&mut machine, b"Q080", 13), "U000000D");
    one_tick(&mut machine, 0x2000);
    assert_eq!(number(&mut machine, "Q080"), 0);
}

#[test]
fn number_14() {
    let mut machine = on();
    accept(&mut machine, &["P0000005", "P0300006"]);
    let before = machine.clone();
    assert_eq!(send(&mut machine, "Q080"), "U000000E");
    assert_eq!(machine.status(), 4);
    accept(&mut machine, &["Q0A"]);
    assert_eq!(machine, before);
    assert_eq!(number(&mut machine, "Q081"), 14);
    assert_eq!(number(&mut machine, "Q083"), 0);
    assert_eq!(machine.status(), 7);
    assert_eq!(send(&mut machine, "Q0A"), "S0A00000");
    assert_eq!(machine.status(), 3);
}

#[test]
fn number_15() {
    let mut machine = on();
    assert_eq!(refused(&mut machine, b"Q084", 15), "U000000F");
    accept(&mut machine, &["P0000005"]);
    assert_eq!(number(&mut machine, "Q084"), 14);
}

#[test]
fn number_16() {
    let mut machine = on();
    accept(&mut machine, &["P0000005", "Q0D00002"]);
    assert_eq!(refused(&mut machine, b"Q080", 16), "U0000010");
    assert_eq!(machine.status(), 0x10);
    one_tick(&mut machine, 2);
    assert_eq!(machine.status(), 0);
    assert_eq!(number(&mut machine, "Q080"), 0);
}

#[test]
fn number_17() {
    let mut machine = on();
    accept(&mut machine, &["P007FFFF", "P08F4240", "P0900FFF", "Q080"]);
    until_rest(&mut machine, 0);
    assert_eq!(machine.positions()[0], 524_287);
    accept(&mut machine, &["P0000001"]);
    assert_eq!(refused(&mut machine, b"Q080", 17), "U0000011");
    accept(&mut machine, &["P00FFFFF", "Q080"]);
    until_rest(&mut machine, 0);
    assert_eq!(machine.positions()[0], 0);
    accept(&mut machine, &["Q080"]);
    until_rest(&mut machine, 0);
    assert_eq!(machine.positions()[0], -524_287);
    accept(&mut machine, &["P0080001", "Q080"]);
    until_rest(&mut machine, 0);
    assert_eq!(send(&mut machine, "q00"), "s0080000");
    assert_eq!(number(&mut machine, "Q080"), 17);
    accept(&mut machine, &["Q0B", "Q080"]);
}

#[test]
fn checks_12_to_17_in_their_order() {
    let mut machine = on();
    accept(&mut machine, &["P007FFFF", "P08F4240", "P0900FFF", "Q080"]);
    until_rest(&mut machine, 0x3FFF);
    accept(&mut machine, &["P0000000", "P0100001", "Q0D033FF"]);
    ticks(&mut machine, 1, 0);
    assert_eq!(number(&mut machine, "Q080"), 12);
    ticks(&mut machine, 1, 0x1000);
    accept(&mut machine, &["Q0D023FF", "Q0B"]);
    assert_eq!(number(&mut machine, "Q080"), 13);
    accept(&mut machine, &["Q0D003FF"]);
    assert_eq!(number(&mut machine, "Q080"), 14);
    accept(&mut machine, &["P0100000"]);
    assert_eq!(number(&mut machine, "Q080"), 15);
    accept(&mut machine, &["P0000001", "P0200001", "P007FFFF", "Q0D00000", "Q080"]);
    until_rest(&mut machine, 0);
    accept(&mut machine, &["Q0D003FF"]);
    assert_eq!(number(&mut machine, "Q080"), 16);
    accept(&mut machine, &["Q0D00000"]);
    assert_eq!(number(&mut machine, "Q080"), 17);
}
