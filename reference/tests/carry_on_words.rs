//! Paper 02, 6/14: `carry on` of desk, and carry-ons on preview's screen with trials between.

mod common;
use common::carried::{end, stopped_at_four};
use common::programs::printed;
use common::{accept, number};
use reference::desk::answer;
use reference::{bench, desk, preview, trial, Entry};
use std::io::BufReader;

/// What 19 prints, and what a line prints that has no form and is nearest to `carry`.
const NO_LINE: &str = "turned away by 19: no line has this value";
const NEAREST: &str = "? carry on";

/// What 26 prints.
const NOTHING_LEFT: &str = "turned away by 26: there is nothing to carry on";

/// Lines and what each prints, without its line feed.
fn told(pairs: &[(&str, &str)]) {
    for (line, printed) in pairs {
        assert_eq!(answer(line.as_bytes()), format!("{printed}\n"), "{line}");
    }
}

#[test]
fn lines_of_the_words() {
    told(&[("carry on", "Q0C00000"), ("silent carry on", "Q4C00000"), ("carry on as A", "Q0C00000A")]);
    told(&[("silent carry on as 0", "Q4C000000"), ("carry on as F", "Q0C00000F")]);
    told(&[("carry on as a", "Q0C00000a"), ("silent carry on as f", "Q4C00000f")]);
    told(&[("carry on as g", NO_LINE), ("carry on as G", NO_LINE), ("silent carry on as z", NO_LINE)]);
}

#[test]
fn words_without_a_form() {
    for line in ["carry", "carry ", "carry off", "carry 0", "carry on 0", "carry on on", "carry  on", "carry On"] {
        told(&[(line, NEAREST)]);
    }
    for line in ["Carry on", "CARRY ON", "carry on\r", "carry on ", "carryon", "ca", "silent carry", "carry as A"] {
        told(&[(line, NEAREST)]);
    }
    told(&[("c", "? clear"), ("continue", "? clear"), ("on", "? outputs ABCDEF"), ("resume", "? reset")]);
    let all = answer(b"?");
    assert!(all.contains(", clear, reset, carry, opening, master, ticks, trial\n"), "{all}");
}

#[test]
fn its_echo_and_its_number() {
    told(&[("S0C12300", "accepted: carry on"), ("SBCFFFFF7", "accepted: carry on (switch B) (as 7)")]);
    told(&[("U000001A", NOTHING_LEFT), ("UA00001AB", &format!("{NOTHING_LEFT} (switch A) (as B)"))]);
}

/// From words to lines, to what a program prints, and to words again.
fn desk_bench_desk(words: &str) -> String {
    let desk = |input: &[u8]| printed(|input, output| desk::run(BufReader::new(input), output), input);
    let lines = desk(words.as_bytes());
    desk(printed(bench::run, lines.as_bytes()).as_bytes())
}

/// The marked move of five, two and minus three, set and begun in silence, stopped at 4, 1 and 2.
const STOPPED: &str = "silent distance 0 5\nsilent distance 1 2\nsilent distance 2 -3\nsilent speed 250000\n\
    silent slope 5118.75\nsilent start 0\nticks 300\nsilent stop\nticks 200\n";

#[test]
fn a_stopped_dose_from_words_to_words() {
    let words = format!("carry on\n{STOPPED}travel 2\ncarry on as 5\nstatus\ncarry on\nticks 1000\ntravel 2\ncarry on");
    let printed = format!(
        "{NOTHING_LEFT}\npulses 3 1 -1 0 0\npulses 1 0 -1 0 0\ntravel 2 minus 2\naccepted: carry on (as 5)\n\
         status 3: moving\nturned away by 11: a move runs\npulses 1 1 -1 0 0\ntravel 2 minus 3\n{NOTHING_LEFT}\n"
    );
    assert_eq!(desk_bench_desk(&words), printed);
}

/// On preview the same, with a trial between stop and carry-on, in the carry-on (11) and behind it. The trial is of a
/// new start: all five pulses.
#[test]
fn trials_between_leave_the_carry_on() {
    let lines = "P4000005\nP4100002\nP4280003\nP48F4240\nP4900FFF\nQ480\nT 300 000000\nQ49\nT 200 000000\n\
        D 0 480 000000\nQ0C\nD 0 480 000000\nT 207 000000\nD 0 480 000000\nQ0C\n";
    let shown = printed(|input, output| preview::run(BufReader::new(input), output), lines.as_bytes());
    let screen = "master 0: ends in tick 480, 0.001920 s\nwine 0: 5 pulses, 50.00 %\nwine 1: 2 pulses, 20.00 %\n\
        wine 2: 3 pulses, 30.00 %\nwine 3: 0 pulses, 0.00 %\nwine 4: 0 pulses, 0.00 %\n";
    let expected = format!(
        "pulses 3 1 -1 0 0\npulses 1 0 -1 0 0\n{screen}accepted: carry on\nturned away by 11: a move runs\n\
         pulses 1 1 -1 0 0\n{screen}{NOTHING_LEFT}\n"
    );
    assert_eq!(shown, expected);
}

/// A trial of a stopped move begins anew at its position, and one that would be stopped brings nothing to carry on.
#[test]
fn trials_of_a_stopped_move() {
    let mut machine = stopped_at_four();
    let before = machine.clone();
    let shown = trial(&machine, 0, 0, 1_000);
    assert_eq!((shown.number, shown.end, shown.travels), (0, 480, [5, 2, 3, 0, 0]));
    assert_eq!(shown.positions, [9, 3, -5, 0, 0]);
    assert_eq!(machine, before);
    accept(&mut machine, &["Q0C"]);
    assert_eq!(trial(&machine, 0, 0, 1_000).number, 11);
    assert_eq!(end(&mut machine, 0), Entry { ticks: 207, cause: 0, travels: [5, 2, -3, 0, 0] });
    accept(&mut machine, &["Q0E02000"]);
    assert_eq!((trial(&machine, 0, 0x2000, 10).end, number(&mut machine, "Q0C")), (1, 26));
}
