//! Preview: the screen of a D line, its forms, and what the bench program would print, in words.

mod common;
use common::programs::printed;
use reference::preview::{read_trial_line, run, Asked, OTHER_FORM};
use reference::{bench, desk};
use std::io::{BufRead, BufReader, Write};
use std::process::{Command, Stdio};

/// What preview prints for an input.
fn preview(input: &[u8]) -> String {
    printed(|input, output| run(BufReader::new(input), output), input)
}

/// What desk tells of what the bench program prints.
fn told(input: &[u8]) -> String {
    let lines = printed(bench::run, input);
    printed(|input, output| desk::run(BufReader::new(input), output), lines.as_bytes())
}

/// A fast dose of 5, 2 and -3 pulses, set without a reply.
const DOSE: &str = "P4000005\nP4100002\nP4280003\nP48F4240\nP4900FFF\n";

/// What preview prints for these lines behind the dose's.
fn behind_dose(lines: &str) -> String {
    preview(format!("{DOSE}{lines}").as_bytes())
}

/// A screen whose first line ends so, and in which the three wines have these figures.
fn screen(first: &str, wines: [&str; 3]) -> String {
    let [a, b, c] = wines;
    let others = "wine 3: 0 pulses, 0.00 %\nwine 4: 0 pulses, 0.00 %\n";
    format!("master 0: {first}\nwine 0: {a} %\nwine 1: {b} %\nwine 2: {c} %\n{others}")
}

#[test]
fn a_dose_that_ends() {
    let shown = screen("ends in tick 480, 0.001920 s", ["5 pulses, 50.00", "2 pulses, 20.00", "3 pulses, 30.00"]);
    for line in ["D 0 1000000 000000\n", "D 0 480 FFFFFF\n", "D 0 480 0", "D 000 0000480 00000000fFfFfF\n"] {
        assert_eq!(behind_dose(line), shown, "{line}");
    }
}

#[test]
fn a_dose_that_does_not_end() {
    let none = ["0 pulses, 0.00"; 3];
    assert_eq!(behind_dose("D 0 0 0"), screen("does not end in 0 ticks, 0.000000 s", none));
    assert_eq!(behind_dose("D 0 1 0"), screen("does not end in 1 ticks, 0.000004 s", none));
    let shown = ["4 pulses, 57.14", "1 pulses, 14.28", "2 pulses, 28.57"];
    assert_eq!(behind_dose("D 0 479 0"), screen("does not end in 479 ticks, 0.001916 s", shown));
}

/// A stop within the ticks ends the dose too.
#[test]
fn a_dose_that_is_stopped() {
    let none = ["0 pulses, 0.00"; 3];
    assert_eq!(behind_dose("Q4E02000\nD 0 1000 002000"), screen("ends in tick 1, 0.000004 s", none));
}

#[test]
fn turned_away() {
    let away = |lines: &str, number: u32| {
        let shown = behind_dose(lines);
        assert!(shown.starts_with(&format!("turned away by {number}: ")) && shown.lines().count() == 1, "{shown}");
    };
    away("D 9 2000000 1000000", 3);
    away("D 9 2000000 FFFFFF", 25);
    away("D 9 1000000 FFFFFF", 10);
    away("D 4294967296 4294967296 0", 25);
    away("D 4294967296 4294967296 100000000", 3);
    away("Q480\nD 1 1 0", 11);
    away("D 1 1 0", 14);
    away("P4000000\nP4100000\nP4200000\nD 4 0 0", 15);
    away("Q4D00002\nD 0 1 FFFFFF", 16);
    assert_eq!(behind_dose("D 1 1 0\nQ06").lines().nth(1), Some("status 0: at rest"));
}

#[test]
fn forms_of_a_d_line() {
    assert_eq!(read_trial_line(b"D 0 1000000 000000"), Some(Asked { master: 0, ticks: 1_000_000, word: 0 }));
    assert_eq!(read_trial_line(b"D 9 4294967295 aF"), Some(Asked { master: 9, ticks: u32::MAX, word: 0xAF }));
    let large = b"D 4294967296 99999999999999999999 100000000";
    assert_eq!(read_trial_line(large), Some(Asked { master: u32::MAX, ticks: u32::MAX, word: u32::MAX }));
    let others =
        ["D", "D ", "D 0 1", "D 0 1 ", "D 0 1 0 ", "D  0 1 0", "D 0 1 0 0", "D0 1 0", "DD 0 1 0", "D 0 1 G", "D 0 A 0"];
    for other in others.into_iter().chain(["D -1 1 0", "D 0 +1 0", "D 0 1 0x0", "D\t0 1 0", "D 0 1 0\r", "D4"]) {
        assert_eq!(read_trial_line(other.as_bytes()), None, "{other}");
        assert_eq!(behind_dose(other), OTHER_FORM);
    }
}

#[test]
fn ninety_nine_characters_and_a_hundred() {
    for (before, behind) in [("D ", "0 480 0"), ("D 0 ", "480 0"), ("D 0 480 ", "0")] {
        for (length, has_form) in [(99, true), (100, false), (5_000, false)] {
            let line = format!("{before}{}{behind}", "0".repeat(length - before.len() - behind.len()));
            assert_eq!(behind_dose(&line) != OTHER_FORM, has_form, "{length}");
        }
    }
}

/// Lines that do not begin with D are the bench program's, one that holds a D line behind a 0D too.
#[test]
fn other_lines_are_told() {
    let input = b"Q06\rD 0 1 0\nd 0 1 0\n D 0 1 0\nT 0 000000\n\nW0\nT 2500 00000A\nq08000007\nP\rP\nX4\nT 1 000001";
    assert_eq!(preview(input), told(input));
    assert_eq!(preview(b""), "");
    assert_eq!(preview(b"T 0 000000"), told(b"T 0 000000"));
    assert!(preview(b"T 0 000000").starts_with("? start, travel, "));
}

/// Lines cut by the reads anywhere print the same.
#[test]
fn reads_of_any_length() {
    let input = b"P0000005\nP08F4240\nP0900FFF\nD 0 480 0\nD\nT 3 000000\nD 0 0 0";
    for capacity in 1..=input.len() {
        let mut output = Vec::new();
        run(BufReader::with_capacity(capacity, &input[..]), &mut output).unwrap();
        assert_eq!(String::from_utf8(output).unwrap(), preview(input));
    }
}

/// The answer to a line comes while the program waits for the next.
#[test]
fn each_line_is_answered_at_once() {
    let mut program = Command::new(env!("CARGO_BIN_EXE_preview_reference"))
        .stdin(Stdio::piped())
        .stdout(Stdio::piped())
        .spawn()
        .unwrap();
    let mut input = program.stdin.take().unwrap();
    let mut output = BufReader::new(program.stdout.take().unwrap());
    for (given, printed) in [("P0000001\n", "accepted\n"), ("T 1 000000\nD ", "pulses 0 0 0 0 0\n"), ("\n", OTHER_FORM)]
    {
        input.write_all(given.as_bytes()).unwrap();
        let mut line = String::new();
        output.read_line(&mut line).unwrap();
        assert_eq!(line, printed);
    }
    drop(input);
    assert!(program.wait().unwrap().success());
}
