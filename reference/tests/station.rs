//! Paper 02, 8/14: names and forms of MD5230D commands, and their command values, worked out by hand.

mod common;
use common::station::{becomes, moves, turned_away};
use reference::station::{convert, CONVERTED, NAMES};
use reference::Command;

#[test]
fn the_examples_of_the_document() {
    becomes("SPD X 35000", &[Command::Speed(140_000)]);
    becomes("SPD Y 100000", &[Command::Speed(400_000)]);
    moves("LNI X -20000, Y 20000", -20_000, 20_000, 0);
    for text in ["SST X", "SST Y", "SST X,Y", "SST X, Y"] {
        becomes(text, &[Command::Stop]);
    }
    let far = ["INC X -2000000000", "INC X 1000000000", "INC Y -2000000000", "INC Y 1000000000"];
    turned_away(29, &far);
}

#[test]
fn one_axis_and_two() {
    moves("INC X 5000", 5_000, 0, 0);
    moves("INC X -5000", -5_000, 0, 0);
    moves("INC Y 5000", 0, 5_000, 1);
    moves("INC Y -5000", 0, -5_000, 1);
    for (x, y, master) in [(7, 8, 1), (8, 7, 0), (8, 8, 0), (-7, 8, 1), (8, -7, 0), (-8, 8, 0), (-1, -2, 1)] {
        moves(&format!("LNI X {x},Y {y}"), x, y, master);
        moves(&format!("LNI X {x}, Y {y}"), x, y, master);
    }
}

/// Of two that are 0 the picker's master is axis 0.
#[test]
fn zero_is_plus() {
    for zero in ["0", "-0", "000", "-000"] {
        moves(&format!("INC X {zero}"), 0, 0, 0);
        moves(&format!("INC Y {zero}"), 0, 0, 0);
        moves(&format!("LNI X {zero},Y -3"), 0, -3, 1);
        moves(&format!("LNI X -3, Y {zero}"), -3, 0, 0);
        moves(&format!("LNI X {zero}, Y {zero}"), 0, 0, 0);
    }
}

#[test]
fn thirty_nine_names() {
    let mut names = NAMES.to_vec();
    names.sort();
    names.dedup();
    assert_eq!(names.len(), 39);
    assert!(CONVERTED.iter().all(|name| NAMES.contains(name)));
    assert!(!NAMES.contains(&&b"EEV"[..]));
}

/// Every name of three capitals, with what is a form of no command behind it, and in forms of the four.
#[test]
fn every_name_of_three_capitals() {
    for place in 0..26 * 26 * 26 {
        let name = [place / 676, place / 26 % 26, place % 26].map(|letter| b'A' + letter as u8);
        let expected = if !NAMES.contains(&&name[..]) || CONVERTED.contains(&&name[..]) { 27 } else { 28 };
        for behind in [&b""[..], b"\0", b" ", b" \0", b" X\xFF\0", b"\0\0", b"\0X 5\0"] {
            assert_eq!(convert(&[&name, behind].concat()).number, expected, "{name:?} {behind:?}");
        }
        for behind in [&b" X\0"[..], b" X 5\0", b" X 5,Y 5\0", b" X 0\0"] {
            let taken = [&b"SST X\0"[..], b"SPD X 5\0", b"INC X 5\0", b"INC X 0\0", b"LNI X 5,Y 5\0"];
            let command = [&name, behind].concat();
            let number = match command == b"SPD X 0\0" {
                true => 29,
                false if taken.contains(&&command[..]) => 0,
                false => expected,
            };
            assert_eq!(convert(&command).number, number, "{command:?}");
        }
    }
}

#[test]
fn names_in_another_form() {
    turned_away(27, &["", " ", "abs X 1", "Abs X 1", "ABSX 1", "ABSS", "AB", "A", " ABS X 1", "EEV", "EEV X 5"]);
    turned_away(27, &["spd X 5", "SpD X 5", "SPDX 5", "SPD,X 5", "SPD\tX 5", "XSPD X 5", "IN X 5", "INCX 5", "SSTX"]);
    turned_away(
        28,
        &["ABS", "ABS ", "ABS X 1000", "ABS x +y", "HOM X", "RST", "RST RST", "CWI X 1 2, Y 3 4", "IST X,Y"],
    );
}

#[test]
fn other_forms_of_the_four() {
    turned_away(27, &["SPD", "SPD ", "SPD X", "SPD X ", "SPD 5", "SPD X5", "SPD Z 5", "SPD x 5", "SPD X,Y 5"]);
    turned_away(
        27,
        &["SPD X -5", "SPD X -0", "SPD X +5", "SPD X 5 ", "SPD X  5", "SPD  X 5", "SPD X 5,000", "SPD X 5.0"],
    );
    turned_away(27, &["INC X", "INC X ", "INC X -", "INC X +5", "INC X --5", "INC X 5-", "INC X - 5", "INC X -5 "]);
    turned_away(27, &["INC X 5,Y 5", "INC Z 5", "INC y 5", "INC X 1A", "INC X 0x5", "INC X 1 000", "INC XY 5"]);
    turned_away(
        27,
        &["LNI X 1", "LNI X 1,", "LNI X 1,Y", "LNI X 1,Y ", "LNI X 1 Y 1", "LNI X 1 ,Y 1", "LNI X 1,  Y 1"],
    );
    turned_away(
        27,
        &["LNI Y 1,X 1", "LNI X 1,X 1", "LNI X 1,Z 1", "LNI x 1,Y 1", "LNI X ,Y 1", "LNI X,Y 1", "LNI X 1,,Y 1"],
    );
    turned_away(27, &["LNI X +1,Y 1", "LNI X 1,Y -", "LNI X 1,Y 1 ", "LNI X 1,Y 1,", "LNI X 1,Y1", "LNI X 1;Y 1"]);
    turned_away(27, &["SST", "SST ", "SST X ", "SST  X", "SST Z", "SST x", "SST XY", "SST X Y", "SST Y,X", "SST X,X"]);
    turned_away(27, &["SST X,", "SST ,Y", "SST X ,Y", "SST X,  Y", "SST X,Y ", "SST X 5"]);
}

/// 27 goes before 29.
#[test]
fn another_form_goes_before_a_number_out_of_range() {
    turned_away(27, &["SPD X -250001", "SPD Z 0", "SPD X 0 ", "INC X +524288", "LNI X 524288,Y", "LNI X 524288,Y 1A"]);
}

/// The 00 is the last byte and the only one; of a command that is lacked no form is judged.
#[test]
fn the_null() {
    for text in [&b"SST X"[..], b"SST X\0\0", b"SST X\0 ", b"\0SST X\0", b"SST\0X\0", b"SST X\0Y\0", b"INC X 5\0\r"] {
        assert_eq!(convert(text).number, 27, "{text:?}");
    }
    for text in [&b""[..], b"\0", b"\0\0", b" \0"] {
        assert_eq!(convert(text).number, 27, "{text:?}");
    }
    for text in [&b"RST"[..], b"RST\0", b"RST\0\0", b"RST \0X", b"RST\0SST X\0"] {
        assert_eq!(convert(text).number, 28, "{text:?}");
    }
}

/// `INC X 5` with any byte in the place of one of its bytes, with any byte more, and with a byte less.
#[test]
fn every_byte_in_every_place() {
    let command = b"INC X 5\0";
    for place in 0..=command.len() {
        for byte in 0..=255u8 {
            let more = [&command[..place], &[byte], &command[place..]].concat();
            let digit = byte.is_ascii_digit();
            let taken = (place == 6 && (digit || byte == b'-')) || (place == 7 && digit);
            assert_eq!(convert(&more).number, if taken { 0 } else { 27 }, "{more:?}");
            let Some(less) = command.len().checked_sub(1 + place) else { continue };
            let other = [&command[..place], &[byte], &command[command.len() - less..]].concat();
            let taken = (place == 4 && (byte == b'Y')) || (place == 6 && digit) || byte == command[place];
            assert_eq!(convert(&other).number, if taken { 0 } else { 27 }, "{other:?}");
        }
    }
    for place in 0..command.len() {
        assert_eq!(convert(&[&command[..place], &command[place + 1..]].concat()).number, 27);
    }
}
