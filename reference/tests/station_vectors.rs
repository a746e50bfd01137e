//! Stored vectors of the converter: lines and what they print, worked out by hand, and what the stored input reaches.

mod common;
use common::vectors::prints;
use reference::make_station::station_text;
use reference::station::NAMES;
use reference::vectors::{answer, MOST_COMMAND_BYTES};
use std::fs;

/// The six places where none is used.
const NONE_USED: &str = "Q0600000 Q0600000 Q0600000 Q0600000 Q0600000 Q0600000";

/// The line of these bytes.
fn line(bytes: &[u8]) -> String {
    let digits: String = bytes.iter().map(|byte| format!("{byte:02X}")).collect();
    format!("C {digits}")
}

#[test]
fn converted() {
    prints(&[
        ("C 5350442058203335303030 00", "?"),
        ("C 535044205820333530303000", "00 1 P08222E0 Q0600000 Q0600000 Q0600000 Q0600000 Q0600000"),
        ("C 535354205800", "00 1 Q0900000 Q0600000 Q0600000 Q0600000 Q0600000 Q0600000"),
        ("C 494E432059202D3500", "00 6 P0000000 P0180005 P0200000 P0300000 P0400000 Q0810000"),
        (
            "C 4C4E492058202D32303030302C205920323030303000",
            "00 6 P0084E20 P0104E20 P0200000 P0300000 P0400000 Q0800000",
        ),
    ]);
}

#[test]
fn turned_away() {
    for (bytes, number) in
        [(&b""[..], 27), (b"\0", 27), (b"INC X 5", 27), (b"EEV\0", 27), (b"RST", 28), (b"SPD X 0\0", 29)]
    {
        prints(&[(&line(bytes), &format!("{number} 0 {NONE_USED}"))]);
    }
}

#[test]
fn forty_eight_bytes_are_the_most() {
    let speed = |zeros: usize| line(format!("SPD X {}5\0", "0".repeat(zeros)).as_bytes());
    assert_eq!(MOST_COMMAND_BYTES, 48);
    assert_eq!(speed(40).len(), 98);
    prints(&[(&speed(40), "00 1 P0800014 Q0600000 Q0600000 Q0600000 Q0600000 Q0600000")]);
    assert_eq!(speed(41).len(), 100);
    prints(&[(&speed(41), "?"), (&speed(42), "?")]);
}

#[test]
fn lines_in_other_forms() {
    for line in ["C", "C 5", "C 53 00", "C 535354205800 ", "C  535354205800", "C 0d", "C 5G", "c 00", " C 00", "C00"] {
        assert_eq!(answer(line.as_bytes()), "?\n", "{line}");
    }
}

/// The bytes of a line of the stored input, if it is one of the right form.
fn bytes_of(line: &str) -> Option<Vec<u8>> {
    let digits = line.strip_prefix("C ").filter(|_| answer(line.as_bytes()) != "?\n")?;
    (0..digits.len()).step_by(2).map(|place| u8::from_str_radix(&digits[place..place + 2], 16).ok()).collect()
}

/// The commands of the stored input, each with what its line prints.
fn commands() -> Vec<(Vec<u8>, String)> {
    station_text().lines().filter_map(|line| Some((bytes_of(line)?, answer(line.as_bytes())))).collect()
}

#[test]
fn the_stored_text() {
    let text = station_text();
    assert!(text.lines().count() <= 410 && text.lines().all(|line| line.len() <= 100));
    assert!(text.bytes().all(|byte| byte == b'\n' || (0x20..0x7F).contains(&byte)));
    let path = concat!(env!("CARGO_MANIFEST_DIR"), "/../crates/vectors/data/station.in");
    assert_eq!(fs::read_to_string(path).unwrap(), text);
}

#[test]
fn the_stored_input_reaches_every_answer() {
    let commands = commands();
    for (begins, least) in [("00 1", 10), ("00 6", 30), ("27 0", 150), ("28 0", 100), ("29 0", 40)] {
        assert!(commands.iter().filter(|(_, printed)| printed.starts_with(begins)).count() >= least, "{begins}");
    }
    let others = station_text().lines().filter(|line| answer(line.as_bytes()) == "?\n").count();
    assert!(others >= 10);
}

/// Each name alone with its 00, without, and with a space and rubbish.
#[test]
fn the_stored_input_has_every_name() {
    let commands = commands();
    for name in NAMES {
        let any =
            |test: &dyn Fn(&[u8]) -> bool| commands.iter().any(|(bytes, _)| bytes.strip_prefix(name).is_some_and(test));
        assert!(any(&|behind| behind == b"\0") && any(&|behind| behind.is_empty()));
        assert!(any(&|behind| behind.len() > 2 && behind[0] == b' ' && behind.contains(&0xFF)));
    }
}

/// Both ends of every range, for both axes and signs, and the first number beyond each.
#[test]
fn the_stored_input_has_every_end() {
    let commands = commands();
    let number = |text: &str| {
        let bytes = [text.as_bytes(), b"\0"].concat();
        let (_, printed) = commands.iter().find(|(other, _)| *other == bytes).unwrap_or_else(|| panic!("{text}"));
        printed[..2].parse::<u8>().unwrap()
    };
    for axis in ["X", "Y"] {
        for (speed, expected) in [("0", 29), ("1", 0), ("250000", 0), ("250001", 29)] {
            assert_eq!(number(&format!("SPD {axis} {speed}")), expected);
        }
        for (distance, expected) in
            [("0", 0), ("-0", 0), ("524287", 0), ("-524287", 0), ("524288", 29), ("-524288", 29)]
        {
            assert_eq!(number(&format!("INC {axis} {distance}")), expected);
        }
    }
    for long in ["4294967296", "4294967301", "18446744073709551619", "1000000000000000000000000000000"] {
        assert_eq!(number(&format!("SPD X {long}")), 29);
    }
}
