//! Desk: `trial`, its three forms, its bounds and the order of its numbers.

use reference::desk::answer;

/// What 3, 25 and 10 print, and what a line prints whose nearest word is `trial`.
const LARGE_WORD: &str = "turned away by 3: an input word is over FFFFFF";
const MANY_TICKS: &str = "turned away by 25: more than 1,000,000 ticks";
const NO_MASTER: &str = "turned away by 10: a value is out of its range";
const FORMS: &str = "? trial 0, trial 0 6000, trial 0 6000 002000";

/// Lines that all print the same, without its line feed.
fn all_told(lines: &[&str], printed: &str) {
    for line in lines {
        assert_eq!(answer(line.as_bytes()), format!("{printed}\n"), "{line}");
    }
}

#[test]
fn good_forms() {
    all_told(&["trial 0", "trial 000", "trial 0 1000000", "trial 00 0001000000 00000000"], "D 0 1000000 000000");
    all_told(&["trial 4 0", "trial 4 0 0", "trial 04 00 000000000"], "D 4 0 000000");
    all_told(&["trial 3 6000 abcdef", "trial 3 6000 00ABCDEF"], "D 3 6000 ABCDEF");
    all_told(&["trial 2 1 2000"], "D 2 1 002000");
}

#[test]
fn the_first_number_that_applies() {
    for (word, is_3) in [("FFFFFF", false), ("1000000", true), ("100000000", true)] {
        for (ticks, is_25) in [("0", false), ("1000000", false), ("1000001", true), ("4294967296", true)] {
            for (master, is_10) in [("0", false), ("4", false), ("5", true), ("256", true), ("4294967296", true)] {
                let line = format!("trial {master} {ticks} {word}");
                let good = format!("D {master} {ticks} {word}");
                let numbers = [(is_3, LARGE_WORD), (is_25, MANY_TICKS), (is_10, NO_MASTER), (true, &good)];
                all_told(&[&line], numbers.into_iter().find(|(applies, _)| *applies).unwrap().1);
            }
        }
    }
}

#[test]
fn without_a_form() {
    all_told(&["trial", "trial ", "trial  0", "trial 0 ", "trial A", "trial -1", "trial 0 -1", "trial 0 1.0"], FORMS);
    all_told(&["trial 0 6000 G", "trial 0 6000 0 0", "trial 5 1000001 G", "trial x 1000001 1000000"], FORMS);
    all_told(&["silent trial 0", "trial 0 as A", "trial 0 6000 002000 as A", "silent trial 5"], FORMS);
    all_told(&["Trial 0", "TRIAL 0", "tri", "trials 0"], FORMS);
    all_told(&["trail 0", "try 0", "tr"], "? travel 2");
}

/// To preview the line of a trial is a D line, whatever the words were.
#[test]
fn each_line_has_the_form() {
    for line in ["trial 0", "trial 4 0", "trial 1 6000 FFFFFF", "trial 0 1000000 0"] {
        let printed = answer(line.as_bytes());
        assert!(reference::preview::read_trial_line(printed.trim_end().as_bytes()).is_some(), "{printed}");
    }
}
