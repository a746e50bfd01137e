//! Stored lists: moves that are stopped and carried on (paper 02, 6/14).

mod between;
mod causes;
mod drawn;
mod ends;
mod refused;
mod shares;

use crate::text::{Text, IDENTIFICATIONS};

/// Shares: the marked move of five with two and minus three.
const FIVE: [&str; 3] = ["P0000005", "P0100002", "P0280003"];

/// Paper 02, 6/14: whole ends behind stops of each cause, what is kept between, and what turns a carry-on away.
pub(super) fn carry_on(text: &mut Text) {
    every_switch(text);
    forms(text);
    causes::causes(text);
    between::between(text);
    refused::refused(text);
    shares::shares(text);
    ends::ends(text);
    drawn::drawn_lists(text);
}

/// Ramp: so many ticks of a running move, order 9, and so many ticks to its end, all read.
fn stopped(text: &mut Text, before: u32, to_the_end: u32) {
    text.read_after(before, 0);
    text.read_lines(&["Q09"]);
    text.read_after(to_the_end, 0);
}

/// Lines of output: words and directions across stops; travels 4, 1 and 2 and then the whole 5, 2 and 3.
fn every_switch(text: &mut Text) {
    text.fast_list(0x00, 0x10, "Carry-ons: 5, 2 and minus 3, stopped and carried on to the end, every switch", &FIVE);
    text.lines(&["P0480005", "P0C00155", "W0C3C3C3", "Q080"]);
    stopped(text, 300, 200);
    text.read_lines(&["Q0C", "q08"]);
    text.read_after_each(&[155, 1, 50, 1, 1], 0);
    text.lines(&["q08000007", "Q080"]);
    text.heading("the same again from where that has ended, in four parts of one, one, one and two pulses");
    for (before, to_the_end) in [(156, 160), (111, 111), (156, 157)] {
        stopped(text, before, to_the_end);
        text.read_lines(&["Q0C"]);
    }
    text.read_after(300, 0);
    text.lines(&["q08"]);
    text.end();
}

/// Lines: every count of digits, both cases, every identification, silent lines; each is stopped in its first tick.
fn forms(text: &mut Text) {
    text.fast_list(0x0A, 0x0B, "Carry-ons: every count of digits, every identification, silent; lines near it", &FIVE);
    text.stop_into_dwell("Q080", 0);
    for line in ["Q0C", "Q0c", "Q0C1", "Q0C12", "Q0c1aF", "Q0C1234", "Q0CfFfFf", "Q4C", "Q4C00000", "Q4CFFFFFF"] {
        text.stop_into_dwell(line, 0);
    }
    for id in IDENTIFICATIONS.chars() {
        text.stop_into_dwell(&format!("Q0C0000{id}{id}"), 0);
    }
    text.heading("turned away by 4, 6, 7 and 8, and bytes that are not taken: nothing is carried on by them");
    text.read_lines(&["Q0C000000A", "Q1C", "Q0CG", "Q0C00000g", "Q0C00000G", "q0C", "P0C", "Q C", "Q0", "Q0F"]);
    text.bytes(b"Q0C\r", 119);
    text.bytes(b"Q0C", 120);
    text.read_after(3, 0);
    text.bytes(b"\r", 0);
    text.readings();
    text.bytes(b"\r", 120);
    text.read_after_each(&[1, 155, 323, 1, 1], 0);
    text.end();
}
