//! A bench that keeps what is done as text for the bench programs.

use super::{Bench, Stand};
use crate::coverage::Coverage;
use crate::random::Random;
use reference::bench::{read_tick_line, MOST_TICKS};
use reference::line::LINE_END;
use reference::machine::{INPUT_WORD_END, LEAST_REPLY_BUFFER};

pub struct Typed {
    pub(super) stand: Stand,
    text: Vec<u8>,
}

/// Lines that are parted by 0D.
const PARTED: [&[u8]; 7] = [
    b"Q06\rQ0",
    b"q08\r",
    b"\r\r",
    b"P0B0\rT 1 000000",
    b"W0\rW0ABCDEF3",
    b"W0abcdefa\rW0ABCDEFA",
    b"Q0600000F\rQ0600000f\rQ0600000g",
];

impl Typed {
    /// The bench programs have switch 0, and have sent the host's first line before any text.
    pub fn new(ticks: u32) -> Typed {
        Typed { stand: Stand::opened(ticks), text: Vec::new() }
    }

    /// The text of the session, whose last line may lack its line feed, and what it meets.
    pub fn finish(mut self, random: &mut Random) -> (Vec<u8>, Coverage) {
        if random.chance(30) {
            self.text.pop();
        }
        (self.text, self.stand.seen())
    }

    fn receive(&mut self, line: &[u8]) -> u8 {
        let mut lent = [0; LEAST_REPLY_BUFFER];
        let mut number = 0;
        for &byte in line.iter().chain(&[LINE_END]) {
            number = self.stand.byte(byte, &mut lent);
        }
        number
    }

    pub(super) fn keep(&mut self, line: &[u8]) {
        self.text.extend_from_slice(line);
        self.text.push(b'\n');
    }

    /// A line that begins with T, right or not.
    fn tick_line(&mut self, line: &[u8]) {
        self.keep(line);
        if let Some((count, word)) = read_tick_line(line) {
            self.stand.ticks(count, word, &mut [0; LEAST_REPLY_BUFFER]);
        }
    }

    /// A T line near the right form.
    fn odd_tick_line(&mut self, random: &mut Random) {
        let count = random.pick(&[0, 1, 7, 99, 1_000_001, 1_000_010, 4_294_967]);
        let mut line = format!("T {count} {:06x}", random.below(INPUT_WORD_END)).into_bytes();
        let at = random.between(1, line.len() as u32 - 1) as usize;
        match random.below(5) {
            0 => line.insert(at, random.pick(b" 01aAgGT\r\t-+")),
            1 => line[at] = random.pick(b" 01aAgGT\r\t/:@`"),
            2 => line.truncate(at),
            3 => line.insert(2, b'0'),
            _ => {}
        }
        self.tick_line(&line);
    }
}

impl Bench for Typed {
    fn stand(&self) -> &Stand {
        &self.stand
    }

    fn stand_mut(&mut self) -> &mut Stand {
        &mut self.stand
    }

    /// A damaged line that a T or a line feed would make another one has an X in its place.
    fn send(&mut self, _: &mut Random, line: &[u8]) -> u8 {
        let mut line = line.to_vec();
        if line.first() == Some(&b'T') {
            line[0] = b'X';
        }
        self.keep(&line);
        self.receive(&line)
    }

    fn run(&mut self, _: &mut Random, count: u32, word: u32) {
        let mut left = count.min(self.ticks_left());
        while left > 0 {
            let part = left.min(MOST_TICKS);
            let line = if word & 1 == 0 { format!("T {part} {word:06X}") } else { format!("T {part} {word:06x}") };
            self.tick_line(line.as_bytes());
            left -= part;
        }
    }

    /// A T line that may not be one, or lines parted by 0D instead of a line feed.
    fn oddity(&mut self, random: &mut Random) {
        if random.chance(70) {
            self.odd_tick_line(random);
        } else {
            let line = random.pick(&PARTED);
            self.send(random, line);
        }
    }
}
