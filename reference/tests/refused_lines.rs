//! Numbers 4 to 11: lines, at rest and while a move runs.

mod common;
use common::refused::{refused, refused_each};
use common::{accept, on, under_way};

#[test]
fn number_4() {
    let mut machine = on();
    let texts = ["", "P", "4", "P000000012", "P0000000123456789", "XX00000012"];
    refused_each(&mut machine, &texts, 4, "U0000004");
    refused_each(&mut machine, &["P400000012"], 4, "");
}

#[test]
fn number_5() {
    let mut machine = on();
    for letter in 0..=255u8 {
        if matches!(letter, b'P' | b'Q' | b'q' | b'W' | 0x0D) {
            continue;
        }
        assert_eq!(refused(&mut machine, &[letter, b'0'], 5), "U0000005");
        assert_eq!(refused(&mut machine, &[letter, b'X', b'G', b'0', b'0', b'0', b'0', b'0', b'1'], 5), "U0000005");
        assert_eq!(refused(&mut machine, &[letter, b'4'], 5), "");
    }
}

#[test]
fn number_6() {
    let mut machine = on();
    for second in 0..=255u8 {
        if matches!(second, b'0' | b'4' | 0x0D) {
            continue;
        }
        assert_eq!(refused(&mut machine, &[b'Q', second, b'6'], 6), "U0000006");
        assert_eq!(refused(&mut machine, &[b'W', second, b'G'], 6), "U0000006");
    }
}

#[test]
fn number_7() {
    let mut machine = on();
    let texts = ["Q0G", "Q06 ", "W0zzzzzz", "P0F00000g", "P0000001G", "P00000G1A", "q0\n"];
    refused_each(&mut machine, &texts, 7, "U0000007");
    assert_eq!(refused(&mut machine, &[b'q', b'0', 0xFF], 7), "U0000007");
    refused_each(&mut machine, &["q4G"], 7, "");
}

#[test]
fn number_8() {
    let mut machine = on();
    let texts = ["P0", "Q0", "q0", "P05", "P06", "P07", "P0D", "P0E", "P0f", "Q05", "Q07", "q0c", "Q0F"];
    refused_each(&mut machine, &texts, 8, "U0000008");
    let texts = ["q05", "q06", "q07", "q09", "q0A", "q0B", "q0C", "q0D", "q0E", "q0F"];
    refused_each(&mut machine, &texts, 8, "U0000008");
    refused_each(&mut machine, &["P0500000E"], 8, "U0000008E");
    refused_each(&mut machine, &["P4500000E"], 8, "");
}

#[test]
fn number_9() {
    let mut machine = on();
    let texts = ["P00", "P00001", "P0812", "P090FFF", "P0A0000", "P0C", "P0B", "Q08", "Q0D", "Q0E0000"];
    refused_each(&mut machine, &texts, 9, "U0000009");
    refused_each(&mut machine, &["W00", "W012", "W0123", "W01234", "W012345"], 9, "U0000009");
}

#[test]
fn number_10() {
    let mut machine = on();
    let texts = ["P0800000", "P08F4241", "P08FFFFF", "P0900000", "P0901000", "P0A04000", "P0C01000", "P0CFFFFF"];
    refused_each(&mut machine, &texts, 10, "U000000A");
    let texts = ["P0B4", "P0BF0", "Q085", "Q086", "Q087", "Q08D", "Q08e", "Q08F0000"];
    refused_each(&mut machine, &texts, 10, "U000000A");
    let texts = ["Q0D00400", "Q0D00800", "Q0D04000", "Q0D08000", "Q0D10000", "Q0E80000", "Q0E20000", "Q0E40000"];
    refused_each(&mut machine, &texts, 10, "U000000A");
    refused_each(&mut machine, &["P0800000B"], 10, "U000000AB");
    refused_each(&mut machine, &["P4800000B"], 10, "");
    accept(&mut machine, &["P0A03FFF", "P0C00FFF", "P0900001", "P0B3", "P0B1FFFF", "Q0D033FF", "Q0E033FF"]);
}

#[test]
fn number_11() {
    let mut machine = under_way(0);
    let texts =
        ["P0000001", "P0180001", "P0900010", "P0A00001", "P0B0", "P0C00001", "Q080", "Q088", "Q08C", "Q0C", "Q0CABC"];
    refused_each(&mut machine, &texts, 11, "U000000B");
    refused_each(&mut machine, &["P0900000"], 10, "U000000A");
    refused_each(&mut machine, &["Q0810000F", "Q0C12345F"], 11, "U000000BF");
    accept(&mut machine, &["P0800064", "Q0D00000", "W0000001", "Q0B", "Q0A", "Q09"]);
}
