//! The session that paper 01 prints, through the firmware library: two distances, a move of 1,000 ticks, readings. The
//! entry of the move goes to a journal, which is printed at the end.

#[path = "../include/temixohuel.rs"]
#[allow(dead_code)]
mod temixohuel;

use temixohuel::{append, read, Controller};

/// A reply is printed with a line feed for 0D.
fn print_reply(reply: &[u8]) {
    print!("{}", String::from_utf8_lossy(reply).replace('\r', "\n"));
}

fn receive(bench: &mut Controller, b: u8) {
    let mut reply = [0; 120];
    let length = bench.byte(&mut reply, b).length;
    print_reply(&reply[..length]);
}

fn line(bench: &mut Controller, text: &str) {
    text.bytes().chain([b'\r']).for_each(|b| receive(bench, b));
}

fn spaced(numbers: [i32; 5]) -> String {
    numbers.map(|number| number.to_string()).join(" ")
}

/// Bytes for a journal, and its length. An entry that has no space is left out: the length stays.
struct Journal {
    bytes: [u8; 920],
    length: usize,
}

/// The journal, an entry to a line: ticks moved, cause, travels.
fn print_journal(journal: &Journal) {
    let bytes = &journal.bytes[..journal.length];
    let mut answer = read(bytes, 0);
    while answer.found {
        println!("journal: {} {} {}", answer.entry.ticks, answer.entry.cause, spaced(answer.entry.travels));
        answer = read(bytes, answer.next);
    }
}

/// Ticks with one input word; the block of a W line, if it comes, and the sums of the signed pulses are printed.
fn ticks(bench: &mut Controller, journal: &mut Journal, count: u32, word: u32) {
    let mut sums = [0; 5];
    let mut reply = [0; 120];
    for _ in 0..count {
        let answer = bench.tick(&mut reply, word);
        print_reply(&reply[..answer.length as usize]);
        sums.iter_mut().zip(answer.pulses).for_each(|(sum, pulse)| *sum += pulse as i32);
        if answer.ended {
            journal.length = append(&mut journal.bytes, journal.length, answer.entry).next;
        }
    }
    println!("{}", spaced(sums));
}

fn main() {
    let (mut bench, _) = Controller::power_on(0);
    let mut journal = Journal { bytes: [0; 920], length: 0 };
    ["P0000001", "P0180001", "P08F4240", "P0900FFF", "Q080"].iter().for_each(|order| line(&mut bench, order));
    ticks(&mut bench, &mut journal, 1000, 0);
    line(&mut bench, "q01");
    line(&mut bench, "Q06");
    print_journal(&journal);
}
