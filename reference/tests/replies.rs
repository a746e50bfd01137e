//! Replies.

mod common;
use common::{accept, on, one_tick, replies, send, ticks, under_way, until_rest};
use reference::{front, Machine};

#[test]
fn everything_with_identification() {
    let mut machine = Machine::power_on(0xB).0;
    accept(&mut machine, &["P0000003", "P0180002", "P08F4240", "P0900FFF", "Q080"]);
    until_rest(&mut machine, 0xABC123);
    let reply = send(&mut machine, "q08000005");
    let blocks = [
        "SB0000035",
        "SB1800025",
        "SB2000005",
        "SB3000005",
        "SB4000005",
        "SB6000005",
        "sB0000035",
        "sB1FFFFE5",
        "sB2000005",
        "sB3000005",
        "sB4000005",
        "RBABC1235",
    ];
    assert_eq!(reply, blocks.join("\n"));
}

#[test]
fn everything_fills_120_bytes() {
    let mut machine = on();
    let mut buf = [0xEE; 120];
    for byte in *b"q08FFFFFE" {
        machine.byte(byte, &mut buf);
    }
    let answer = machine.byte(0x0D, &mut buf);
    assert_eq!((answer.len, answer.number), (120, 0));
    assert!(buf.chunks(10).all(|block| block[8] == b'E' && block[9] == 0x0D));
    let earlier = buf;
    for byte in *b"q08" {
        machine.byte(byte, &mut buf);
    }
    assert_eq!(machine.byte(0x0D, &mut buf).len, 108);
    assert_eq!(buf[108..], earlier[108..]);
    assert!(buf[..108].chunks(9).all(|block| block[8] == 0x0D));
}

#[test]
fn front_part() {
    let buf = [1, 2, 3];
    assert_eq!(front(&buf, 0), &[] as &[u8]);
    assert_eq!(front(&buf, 2), &[1, 2]);
    assert_eq!(front(&buf, 3), &[1, 2, 3]);
    assert_eq!(front(&buf, 4), &[] as &[u8]);
    assert_eq!(front(&buf, usize::MAX), &[] as &[u8]);
}

#[test]
fn p_answers() {
    let mut machine = Machine::power_on(0xF).0;
    let pairs = [
        ("P00abcde", "UF000000"),
        ("P00abcdeF", "UF000000F"),
        ("P4000001", ""),
        ("P0B0", "UF000000"),
        ("P0B3abcd7", "UF0000007"),
    ];
    replies(&mut machine, &pairs);
}

#[test]
fn q_echoes() {
    let mut machine = on();
    accept(&mut machine, &["P0000005"]);
    let pairs = [
        ("Q0D033ff", "S0D033FF"),
        ("Q0E00000A", "S0E00000A"),
        ("Q0D00000", "S0D00000"),
        ("Q0a", "S0A00000"),
        ("Q0Babc", "S0BABC00"),
        ("Q080fedc3", "S080FEDC3"),
        ("Q09FFFFF0", "S09FFFFF0"),
    ];
    replies(&mut machine, &pairs);
}

#[test]
fn readings_take_any_further_digits() {
    let pairs = [("Q06FFFFF", "S0600000"), ("Q04abc", "S0400000"), ("q0212345C", "s0200000C")];
    replies(&mut on(), &pairs);
}

/// Paper 02, 3/14; what comes 2,500 ticks later is in `settle`.
#[test]
fn w_answers_nothing_at_once() {
    let mut machine = on();
    assert_eq!(send(&mut machine, "W0"), "");
    ticks(&mut machine, 1, 0xBB8001);
    replies(&mut machine, &[("W0abcdef", ""), ("W0ABCDEF9", ""), ("W4000000", "")]);
    assert_eq!(one_tick(&mut machine, 0).words, [0, 0]);
    replies(&mut machine, &[("W0", ""), ("W01", "U0000009"), ("W41", "")]);
}

#[test]
fn travel_has_the_latest_moves_minus_bit() {
    let mut machine = on();
    accept(&mut machine, &["P0080005", "P0180000"]);
    assert_eq!(send(&mut machine, "Q00"), "S0000000");
    accept(&mut machine, &["Q080"]);
    replies(&mut machine, &[("Q00", "S0080000"), ("Q01", "S0180000")]);
    until_rest(&mut machine, 0);
    accept(&mut machine, &["P0000001"]);
    replies(&mut machine, &[("Q00", "S0080005"), ("q00", "s00FFFFB")]);
}

#[test]
fn readings_do_not_alter_a_move() {
    let mut one = under_way(0);
    let mut other = one.clone();
    while one.status() & 2 != 0 {
        accept(&mut one, &["q08", "Q06", "Q00", "W0"]);
        assert_eq!(one_tick(&mut one, 0), one_tick(&mut other, 0));
    }
    assert_eq!(one.travels(), other.travels());
}

#[test]
fn a_line_may_take_any_time() {
    let mut machine = on();
    let mut buf = [0; 120];
    for byte in *b"Q06" {
        assert_eq!(machine.byte(byte, &mut buf).len, 0);
        one_tick(&mut machine, 0);
    }
    assert_eq!(machine.byte(0x0D, &mut buf).len, 9);
    assert_eq!(front(&buf, 9), b"S0600000\x0D");
}

#[test]
fn after_a_refused_line_the_next_is_read_afresh() {
    replies(&mut on(), &[("P0000000000000000000000", "U0000004"), ("Q06", "S0600000")]);
}
