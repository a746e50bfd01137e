//! What the tests share: a controller, lines and ticks that go in, and what must hold of the answers.

#![allow(dead_code)]

pub mod blocks;
pub mod carried;
pub mod followed;
pub mod latest;
pub mod programs;
pub mod refused;
pub mod sequence;
pub mod settled;
pub mod station;
pub mod stopped;
pub mod stored_lists;
pub mod sums;
pub mod vectors;

use reference::{front, Machine, TickAnswer};

/// A controller of switch 0.
pub fn on() -> Machine {
    Machine::power_on(0).0
}

/// One line goes in with 0D; the reply as text and the number.
pub fn line(machine: &mut Machine, characters: &[u8]) -> (String, u8) {
    let mut buf = [0xEE; 128];
    for &character in characters {
        let answer = machine.byte(character, &mut buf);
        assert_eq!((answer.len, answer.number), (0, 0));
        assert_eq!(buf, [0xEE; 128]);
    }
    let answer = machine.byte(0x0D, &mut buf);
    assert!(buf[answer.len..].iter().all(|&byte| byte == 0xEE));
    let reply = String::from_utf8(front(&buf, answer.len).to_vec()).unwrap();
    (reply.replace('\r', "\n").trim_end().to_string(), answer.number)
}

/// The reply of one line, its last 0D dropped, other 0D as line feeds.
pub fn send(machine: &mut Machine, text: &str) -> String {
    line(machine, text.as_bytes()).0
}

/// Lines and the reply that each must have.
pub fn replies(machine: &mut Machine, pairs: &[(&str, &str)]) {
    for (text, reply) in pairs {
        assert_eq!(send(machine, text), *reply, "{text}");
    }
}

/// The number of one line.
pub fn number(machine: &mut Machine, text: &str) -> u8 {
    line(machine, text.as_bytes()).1
}

/// Lines that must all be accepted.
pub fn accept(machine: &mut Machine, texts: &[&str]) {
    for text in texts {
        assert_eq!(number(machine, text), 0, "{text}");
    }
}

/// One tick with 120 bytes lent; the block of a W line is not looked at.
pub fn one_tick(machine: &mut Machine, word: u32) -> TickAnswer {
    machine.tick(word, &mut [0; 120])
}

/// n ticks with one word; the sums of the signed pulses; no waiting start may fail.
pub fn ticks(machine: &mut Machine, n: u32, word: u32) -> [i64; 5] {
    let mut sums = [0; 5];
    for _ in 0..n {
        let answer = one_tick(machine, word);
        assert_eq!(answer.number, 0);
        for (sum, pulse) in sums.iter_mut().zip(answer.pulses) {
            *sum += pulse as i64;
        }
    }
    sums
}

/// The status after n ticks with one word; no waiting start may fail.
pub fn status_after(machine: &mut Machine, n: u32, word: u32) -> u32 {
    ticks(machine, n, word);
    machine.status()
}

/// Ticks until the move has ended; how many ticks that took.
pub fn until_rest(machine: &mut Machine, word: u32) -> u32 {
    let mut count = 0;
    while machine.status() & 2 != 0 {
        assert_eq!(one_tick(machine, word).number, 0);
        count += 1;
        assert!(count < 50_000_000);
    }
    count
}

/// A fast move of 1,000 pulses plus on axis 0 and 400 minus on axis 1, under way for 500 ticks.
pub fn under_way(word: u32) -> Machine {
    let mut machine = on();
    accept(&mut machine, &["P00003E8", "P0180190", "P08F4240", "P0900FFF", "Q080"]);
    assert_eq!(status_after(&mut machine, 500, word) & 2, 2);
    machine
}

/// A move of 3 pulses has just ended; a dwell of 2 ms (500 ticks) runs.
pub fn in_dwell() -> Machine {
    let mut machine = on();
    accept(&mut machine, &["P0000003", "P08F4240", "P0900FFF", "P0A00002", "Q080"]);
    until_rest(&mut machine, 0);
    assert_eq!((machine.travels()[0], machine.status()), (3, 1));
    machine
}

/// The inequality of demand 3 for every axis of the latest move.
pub fn assert_shares(travels: [u32; 5], distances: [u32; 5], master: usize) {
    let m = travels[master] as u64;
    let master_distance = distances[master] as u64;
    for (axis, (&travel, &distance)) in travels.iter().zip(&distances).enumerate() {
        let (t, d) = (travel as u64, distance as u64);
        assert!(t * master_distance <= m * d, "axis {axis} ahead");
        assert!(m * d < (t + 1) * master_distance, "axis {axis} behind");
    }
}
