//! Host end: writer and master picker.

use reference::line::read_line;
use reference::{pick_master, write_line, Command, CommandValue, Digit};

/// Every command with its full line.
const FULL_LINES: [(Command, &[u8]); 20] = [
    (Command::Distance { axis: 2, minus: true, pulses: 5_000 }, b"P0281388\r"),
    (Command::Speed(1_000_000), b"P08F4240\r"),
    (Command::Slope(4_095), b"P0900FFF\r"),
    (Command::Dwell(16_383), b"P0A03FFF\r"),
    (Command::Watch(3), b"P0B30000\r"),
    (Command::Polarity(4_095), b"P0C00FFF\r"),
    (Command::ReadTravel { axis: 4 }, b"Q0400000\r"),
    (Command::ReadStatus, b"Q0600000\r"),
    (Command::Start { master: 4 }, b"Q0840000\r"),
    (Command::StartAfterDwell { master: 4 }, b"Q08C0000\r"),
    (Command::Stop, b"Q0900000\r"),
    (Command::ClearWrongMaster, b"Q0A00000\r"),
    (Command::ResetPositions, b"Q0B00000\r"),
    (Command::CarryOn, b"Q0C00000\r"),
    (Command::LowOn(0x33FF), b"Q0D033FF\r"),
    (Command::HighOn(0x1000), b"Q0E01000\r"),
    (Command::ReadPosition { axis: 3 }, b"q0300000\r"),
    (Command::ReadEverything, b"q0800000\r"),
    (Command::ReadInputs, b"W0\r"),
    (Command::Outputs(0xABCDEF), b"W0ABCDEF\r"),
];

/// The line of a command value; the rest of the buffer is kept.
fn written(command: Command, silent: bool, identification: Option<u8>) -> Vec<u8> {
    let mut buf = [0x55; 16];
    let length = write_line(&CommandValue { command, silent, identification }, &mut buf).unwrap();
    assert!(buf[length..].iter().all(|&kept| kept == 0x55));
    buf[..length].to_vec()
}

/// Every command that has a line with an identification: all but the W query.
fn identifiable() -> impl Iterator<Item = (Command, &'static [u8])> {
    FULL_LINES.into_iter().filter(|(command, _)| *command != Command::ReadInputs)
}

#[test]
fn full_lines() {
    for (command, text) in FULL_LINES {
        assert_eq!(written(command, false, None), text);
    }
}

#[test]
fn silent_lines() {
    for (command, text) in FULL_LINES {
        let mut silent = text.to_vec();
        silent[1] = b'4';
        assert_eq!(written(command, true, None), silent);
    }
}

#[test]
fn identified_lines() {
    for (command, text) in identifiable() {
        assert_eq!(written(command, false, Some(b'F')), [&text[..8], b"F\r"].concat());
        assert_eq!(written(command, true, Some(b'f'))[8..], *b"f\r");
    }
}

/// The controller's end reads the command and the identification back.
fn read_back(command: Command, silent: bool, identification: Option<u8>) {
    let line = written(command, silent, identification);
    let read = read_line(&line[..line.len() - 1]).unwrap();
    assert_eq!(read.command, command);
    assert_eq!(read.identification.map(Digit::character), identification);
}

#[test]
fn lines_are_read_back() {
    for (command, _) in FULL_LINES {
        read_back(command, false, None);
        read_back(command, true, None);
    }
    for (command, _) in identifiable() {
        read_back(command, false, Some(b'0'));
        read_back(command, true, Some(b'A'));
    }
}

#[test]
fn a_line_buffer_of_ten_bytes_is_enough() {
    let mut buf = [0; 10];
    let value = CommandValue { command: Command::Stop, silent: false, identification: Some(b'A') };
    assert_eq!(write_line(&value, &mut buf), Ok(10));
    assert_eq!(&buf, b"Q0900000A\r");
}

#[test]
fn master_picker() {
    assert_eq!(pick_master([0; 5]), 0);
    assert_eq!(pick_master([1, 1, 1, 1, 1]), 0);
    assert_eq!(pick_master([0, 3, 2, 3, 1]), 1);
    assert_eq!(pick_master([0, 0, 0, 0, 1]), 4);
    assert_eq!(pick_master([5, 6, 7, 8, 8]), 3);
    assert_eq!(pick_master([u32::MAX, 0, 0, 0, u32::MAX]), 0);
}
