//! Desk: the program, line by line, and from words to words by way of the bench program.

mod common;
use common::programs::printed;
use reference::{bench, desk};
use std::io::{BufRead, BufReader, Write};
use std::process::{Command, Stdio};

/// What the program desk prints for an input.
fn desk(input: &[u8]) -> String {
    printed(|input, output| desk::run(BufReader::new(input), output), input)
}

#[test]
fn the_last_line_may_lack_its_line_feed() {
    assert_eq!(desk(b""), "");
    assert_eq!(desk(b"stop"), "Q0900000\n");
    assert_eq!(desk(b"stop\n"), "Q0900000\n");
    assert_eq!(desk(b"stop\nU0000000"), "Q0900000\naccepted\n");
    assert_eq!(desk(b"\n").lines().count(), 1);
    assert_eq!(desk(b"\n\nstop").lines().count(), 3);
}

#[test]
fn carriage_returns_are_characters() {
    assert_eq!(desk(b"stop\r\nU0000000\r\n"), "? stop\nturned away by 20: this is no reply block\n");
}

#[test]
fn any_bytes_and_long_lines() {
    let mut input = vec![b's'; 3_000_000];
    input.push(b'\n');
    input.extend((0..=255u8).filter(|&byte| byte != b'\n'));
    input.extend(b"\nstatus");
    let printed = desk(&input);
    let lines: Vec<&str> = printed.lines().collect();
    assert_eq!(lines[0], "? start 0, start 0 after dwell");
    assert!(lines[1].starts_with("? start, travel"));
    assert_eq!(lines[2..], ["Q0600000"]);
}

/// Lines cut by the reads anywhere print the same.
#[test]
fn reads_of_any_length() {
    let input = b"start 0\n\nU0000000\n1 -1 0 0 0\nhelp\nstop as A";
    for capacity in 1..=input.len() {
        let mut output = Vec::new();
        desk::run(BufReader::with_capacity(capacity, &input[..]), &mut output).unwrap();
        assert_eq!(String::from_utf8(output).unwrap(), desk(input));
    }
}

/// The answer to a line comes while the program waits for the next.
#[test]
fn each_line_is_answered_at_once() {
    let mut program = Command::new(env!("CARGO_BIN_EXE_desk_reference"))
        .stdin(Stdio::piped())
        .stdout(Stdio::piped())
        .spawn()
        .unwrap();
    let mut input = program.stdin.take().unwrap();
    let mut output = BufReader::new(program.stdout.take().unwrap());
    for (given, printed) in
        [("start 0\n", "Q0800000\n"), ("S0800000\nst", "accepted: start 0\n"), ("op\n", "Q0900000\n")]
    {
        input.write_all(given.as_bytes()).unwrap();
        let mut line = String::new();
        output.read_line(&mut line).unwrap();
        assert_eq!(line, printed);
    }
    drop(input);
    assert!(program.wait().unwrap().success());
}

/// From words to words: what desk tells of what the bench program prints to the lines of these words.
fn told(words: &[u8]) -> String {
    let lines = desk(words);
    desk(printed(bench::run, lines.as_bytes()).as_bytes())
}

/// 5, 2 and 3 pulses, run to their end.
#[test]
fn a_dose_from_words_to_words() {
    let words =
        b"distance 0 5\ndistance 1 2\ndistance 2 -3\nspeed 250000\nslope 5118.75\nstart 0\nticks 1000\nposition 2";
    let expected =
        "accepted\naccepted\naccepted\naccepted\naccepted\naccepted: start 0\npulses 5 2 -3 0 0\nposition 2 -3\n";
    assert_eq!(told(words), expected);
}

/// Each line of the stored recipe has its line in words; a carry-on behind the whole dose and the wrong master are all
/// that is turned away.
#[test]
fn the_stored_recipe() {
    let words = std::fs::read(concat!(env!("CARGO_MANIFEST_DIR"), "/../docs/recipe.txt")).unwrap();
    let told = told(&words);
    assert_eq!(told.lines().count(), words.iter().filter(|&&byte| byte == b'\n').count());
    let away: Vec<&str> =
        told.lines().filter(|line| line.starts_with('?') || line.starts_with("turned away")).collect();
    let (nothing_left, wrong_master) = ("there is nothing to carry on", "an axis is longer than the master");
    assert_eq!(away, [format!("turned away by 26: {nothing_left}"), format!("turned away by 14: {wrong_master}")]);
}
