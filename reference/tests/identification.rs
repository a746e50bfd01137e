//! Paper 02, 7/14: identifications of either case at the controller. Replies return the very character.

mod common;
use common::blocks::{block, no_block};
use common::refused::{refused, refused_each};
use common::{accept, line, on, one_tick, replies, send, ticks, under_way};
use reference::{Digit, Machine};

/// The 22 identifications.
const ALL: &str = "0123456789ABCDEFabcdef";

/// The characters next to 0-9, A-F and a-f.
const NEXT: [&str; 6] = ["/", ":", "@", "G", "`", "g"];

/// Character and value with case are one to one: 22 characters are digits, each the only one of its value and case.
#[test]
fn a_digit_tells_value_and_case() {
    let mut read = Vec::new();
    for character in 0..=255u8 {
        match Digit::read(character) {
            Some(digit) => {
                assert_eq!(digit.character(), character);
                assert_eq!(digit.value() as u32, (character as char).to_digit(16).unwrap());
                assert_eq!(digit.is_small(), character.is_ascii_lowercase());
                read.push((digit.value(), digit.is_small()));
            }
            None => assert!(!ALL.as_bytes().contains(&character)),
        }
    }
    assert_eq!(read.len(), 22);
    let twice = |pair: &(u8, bool)| read.iter().filter(|other| *other == pair).count() > 1;
    assert!(!read.iter().any(twice) && !read.iter().any(|&(value, small)| value < 10 && small));
}

#[test]
fn lines_of_the_rulings() {
    replies(&mut on(), &[("P0000001a", "U0000000a"), ("P08f4240F", "U0000000F"), ("P08F4240f", "U0000000f")]);
}

/// Each form of a reply: U, S of a travel, of the status and of an order, s, in each case of each letter.
#[test]
fn every_form_returns_the_very_character() {
    for id in ALL.chars() {
        let mut machine = Machine::power_on(0xA).0;
        let forms = [
            ("P0000005", "UA000000"),
            ("P0B1abcd", "UA000000"),
            ("Q00abcde", "SA000000"),
            ("Q06ABCDE", "SA600000"),
            ("q04fedcb", "sA400000"),
            ("Q0Aabcde", "SAAABCDE"),
            ("Q0B1fa00", "SAB1FA00"),
            ("Q0d00000", "SAD00000"),
            ("Q0E033ff", "SAE033FF"),
            ("Q0E00000", "SAE00000"),
            ("Q080fEdC", "SA80FEDC"),
            ("Q09fffff", "SA9FFFFF"),
        ];
        for (text, reply) in forms {
            assert_eq!(send(&mut machine, &format!("{text}{id}")), format!("{reply}{id}"));
        }
        one_tick(&mut machine, 0);
        assert_eq!(send(&mut machine, &format!("Q0C1fa00{id}")), format!("SAC1FA00{id}"));
    }
}

/// q 8 has it in all twelve blocks, and 120 bytes are enough.
#[test]
fn everything_has_it_in_twelve_blocks() {
    for id in ALL.chars() {
        let reply = send(&mut on(), &format!("q0800000{id}"));
        assert_eq!(reply.lines().count(), 12);
        assert!(reply.lines().all(|block| block.len() == 9 && block.ends_with(id)), "{reply}");
    }
}

/// Data digits ignore the case, beside an identification of either case and without.
#[test]
fn data_digits_ignore_the_case() {
    for id in ["", "7", "C", "c"] {
        let (mut small, mut capital) = (on(), on());
        for text in ["P00abcde", "P08f423f", "P0900fff", "P0c00abc", "Q0e0330f", "W0abcdef"] {
            let capitals = format!("{}{}", &text[..1], text[1..].to_uppercase());
            assert_eq!(line(&mut small, (text.to_string() + id).as_bytes()).1, 0);
            accept(&mut capital, &[&(capitals + id)]);
        }
        assert_eq!(small, capital);
    }
}

/// The block of a W line, which a later tick answers; the two of a letter are different, so that each has its own.
#[test]
fn the_block_of_a_w_line() {
    let mut machine = on();
    assert_eq!(send(&mut machine, "W0ABCDEFf"), "");
    no_block(&mut machine, 2_499, 0);
    assert_eq!(block(&mut machine, 0x123456), "R0123456f\n");
    for (first, second) in [("W0ABCDEFb", "W0ABCDEFB"), ("W0ABCDEFB", "W0ABCDEFb")] {
        accept(&mut machine, &[first]);
        no_block(&mut machine, 2_499, 0);
        accept(&mut machine, &[second]);
        no_block(&mut machine, 2_499, 0);
        assert_eq!(block(&mut machine, 0xFEDCBA), format!("R0FEDCBA{}\n", &second[8..]));
    }
    accept(&mut machine, &["W0000000a", "W4000000A"]);
    no_block(&mut machine, 5_001, 0);
}

/// A query takes the place of a line with a small identification, and its block has none.
#[test]
fn a_query_in_the_place_of_an_identified_line() {
    let mut machine = on();
    accept(&mut machine, &["W0000000a"]);
    no_block(&mut machine, 1_000, 0);
    accept(&mut machine, &["W0"]);
    no_block(&mut machine, 1_499, 0);
    no_block(&mut machine, 1_000, 7);
    assert_eq!(block(&mut machine, 7), "R0000007\n");
}

/// 4 to 7 have none, whatever the ninth character is; nothing is altered.
#[test]
fn none_for_4_to_7() {
    let mut machine = on();
    for id in ALL.chars() {
        refused_each(&mut machine, &[&format!("P0000001{id}a"), &format!("P0000001A{id}")], 4, "U0000004");
        refused_each(&mut machine, &[&format!("X0000001{id}"), &format!("p0000001{id}")], 5, "U0000005");
        refused_each(&mut machine, &[&format!("P1000001{id}"), &format!("Qa600000{id}")], 6, "U0000006");
        refused_each(&mut machine, &[&format!("P00000g1{id}"), &format!("W0`00000{id}")], 7, "U0000007");
    }
}

/// 7 widens to a-f and no further: every other ninth character is turned away, in lines of every letter.
#[test]
fn every_other_character_is_7() {
    let mut machine = on();
    for character in (0..=255u8).filter(|character| !ALL.as_bytes().contains(character) && *character != 0x0D) {
        for text in [&b"P0000001"[..], b"Q0600000", b"q0800000", b"W0123456"] {
            assert_eq!(refused(&mut machine, &[text, &[character]].concat(), 7), "U0000007");
        }
    }
    for next in NEXT {
        refused_each(&mut machine, &[&format!("P4000001{next}")], 7, "");
    }
}

/// From 8 on with it: at rest, with an input that acts, and in a move. No line of six digits has 9.
#[test]
fn from_8_on_with_it() {
    for id in ALL.chars() {
        let turned = |machine: &mut Machine, text: &str, number: u8| {
            let reply = refused(machine, format!("{text}{id}").as_bytes(), number);
            assert_eq!(reply, format!("U0{number:06X}{id}"));
        };
        let mut machine = on();
        for (text, number) in [("P0500001", 8), ("Q0F00000", 8), ("P0800000", 10), ("Q0C00000", 26), ("Q0800000", 15)] {
            turned(&mut machine, text, number);
        }
        accept(&mut machine, &["P0000001", "Q0D00002"]);
        turned(&mut machine, "Q0800000", 16);
        accept(&mut machine, &["Q0D02000"]);
        turned(&mut machine, "Q0800000", 13);
        accept(&mut machine, &["Q0D01000"]);
        turned(&mut machine, "Q0800000", 12);
        turned(&mut under_way(0), "P0900001", 11);
    }
}

/// 14 sets bit 2 beside its reply, and 17 is the last.
#[test]
fn numbers_14_and_17_with_it() {
    for id in ["a", "F", "f", "9"] {
        let mut machine = on();
        accept(&mut machine, &["P0000001", "P08F4240", "P0900FFF", "Q080"]);
        ticks(&mut machine, 207, 0);
        assert_eq!(send(&mut machine, &format!("Q0840000{id}")), format!("U000000E{id}"));
        assert_eq!(machine.status(), 4);
        accept(&mut machine, &["P007FFFF"]);
        assert_eq!(refused(&mut machine, format!("Q0800000{id}").as_bytes(), 17), format!("U0000011{id}"));
    }
}
