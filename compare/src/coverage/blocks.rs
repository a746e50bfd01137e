//! Counters of blocks, from bytes and from ticks, of W lines, and of ticks that were turned away.

use crate::counted::grouped;
use reference::line::LINE_END;
use reference::machine::INPUT_WORD_END;
use reference::{front, TickAnswer};
use std::fmt;

#[derive(Clone, Debug, Default)]
pub struct Blocks {
    from_bytes: u64,
    from_ticks: u64,
    /// Accepted W lines that ask for a block, and those of them whose place another took before it came.
    asked: u64,
    replaced: u64,
    /// Ticks with a block and an entry, and with a block and a failed start's number.
    with_entry: u64,
    with_number: u64,
    /// Ticks turned away by 2, those of them with an over-large word, and ticks turned away by 3.
    short: u64,
    short_and_large: u64,
    large: u64,
}

/// Each block ends with 0D.
fn blocks_in(reply: &[u8]) -> u64 {
    reply.iter().filter(|&&byte| byte == LINE_END).count() as u64
}

impl Blocks {
    /// The reply of a received byte.
    pub fn byte(&mut self, reply: &[u8]) {
        self.from_bytes += blocks_in(reply);
    }

    /// An accepted W line: whether it asks for a block, and whether an earlier one's is still to come.
    pub fn w_line(&mut self, asks: bool, earlier: bool) {
        self.asked += asks as u64;
        self.replaced += earlier as u64;
    }

    /// A tick with its input word and its lent buffer.
    pub fn tick(&mut self, answer: &TickAnswer, word: u32, lent: &[u8]) {
        let (block, large) = (answer.len > 0, word >= INPUT_WORD_END);
        self.from_ticks += blocks_in(front(lent, answer.len));
        self.with_entry += (block && answer.entry.is_some()) as u64;
        self.with_number += (block && answer.number != 0) as u64;
        self.short += (answer.number == 2) as u64;
        self.short_and_large += (answer.number == 2 && large) as u64;
        self.large += (answer.number == 3) as u64;
    }

    pub fn add(&mut self, more: &Blocks) {
        self.from_bytes += more.from_bytes;
        self.from_ticks += more.from_ticks;
        self.asked += more.asked;
        self.replaced += more.replaced;
        self.with_entry += more.with_entry;
        self.with_number += more.with_number;
        self.short += more.short;
        self.short_and_large += more.short_and_large;
        self.large += more.large;
    }
}

impl fmt::Display for Blocks {
    fn fmt(&self, f: &mut fmt::Formatter) -> fmt::Result {
        let g = grouped;
        let beside =
            format!("{} with an entry, {} with a failed start's number", g(self.with_entry), g(self.with_number));
        writeln!(
            f,
            "  blocks from bytes {}, from ticks {}, of these {beside}",
            g(self.from_bytes),
            g(self.from_ticks)
        )?;
        let cut_off = self.asked - self.from_ticks - self.replaced;
        write!(f, "  W lines that ask for a block {}, replaced before it {}", g(self.asked), g(self.replaced))?;
        writeln!(f, ", cut off {}", g(cut_off))?;
        let large = format!("of these {} with an over-large word", g(self.short_and_large));
        writeln!(f, "  ticks turned away by 2 {}, {large}, by 3 {}", g(self.short), g(self.large))
    }
}
