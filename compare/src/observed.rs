//! A reference machine whose answers and status are counted.

mod carried;
mod carrying;
mod followed;
mod moved;
mod paired;
mod received;
mod tried;

pub use carrying::{Carrying, Directed};
pub use received::Received;

use crate::call::LONGEST_LENT;
use crate::coverage::Coverage;
use crate::operator::WATCH_OFF;
use followed::Followed;
use paired::Paired;
use reference::{front, ByteAnswer, Machine};

/// A reference machine whose answers are counted.
pub struct Observed {
    machine: Machine,
    seen: Coverage,
    status: u32,
    /// A stop of the running move has begun.
    stop_begun: bool,
    /// The characters of the line under way, the one before it with its reply, and what those lines have set.
    line: Vec<u8>,
    last: Received,
    followed: Followed,
    carrying: Carrying,
    paired: Paired,
}

impl Observed {
    pub fn power_on(switch: u8) -> Observed {
        let (machine, number) = Machine::power_on(switch);
        let mut seen = Coverage { items: 1, ..Coverage::default() };
        seen.number(number);
        seen.switches.mark(switch);
        let (status, followed, carrying) = (machine.status(), Followed::power_on(), Carrying::power_on());
        let (line, last, paired) = (Vec::new(), Received::default(), Paired::default());
        Observed { machine, seen, status, stop_begun: false, line, last, followed, carrying, paired }
    }

    /// As the bench programs begin: the host's first line was accepted, and is not counted (paper 02, 2/14).
    pub fn opened() -> Observed {
        let followed = Followed { watch: WATCH_OFF, watch_set: true, ..Followed::power_on() };
        Observed { machine: reference::bench::opened(), followed, ..Observed::power_on(0) }
    }

    pub fn machine(&self) -> &Machine {
        &self.machine
    }

    /// What the machine has met.
    pub fn into_seen(mut self) -> Coverage {
        if self.seen.trials.trials > 0 {
            self.seen.trials.switches.join(&self.seen.switches);
        }
        self.seen
    }

    /// A call for the readings.
    pub fn readings(&mut self) {
        self.seen.calls += 1;
        self.seen.readings += 1;
    }

    /// A call with a received byte and its lent buffer.
    pub fn byte(&mut self, byte: u8, lent: &mut [u8]) -> ByteAnswer {
        let answer = self.machine.byte(byte, lent);
        self.seen.calls += 1;
        self.seen.bytes += 1;
        self.seen.reply_bytes += answer.len as u64;
        self.seen.blocks.byte(front(lent, answer.len));
        self.seen.identified.reply(front(lent, answer.len), answer.number);
        self.seen.lent.mark(lent.len().min(LONGEST_LENT) as u8);
        self.seen.number(answer.number);
        if answer.number == 2 {
            return answer;
        }
        if byte == reference::line::LINE_END {
            self.last = Received { line: self.line.clone(), reply: front(lent, answer.len).to_vec() };
            self.end_line(answer.number);
        } else {
            self.line.push(byte);
        }
        answer
    }

    /// The end of a line, and its number.
    fn end_line(&mut self, number: u8) {
        self.seen.lines += 1;
        let line = std::mem::take(&mut self.line);
        self.identify_line(&line, number);
        let carried = self.carry_line(&line, number);
        if number == 0 {
            self.followed.accepted(&line, self.status, &mut self.seen.blocks);
        }
        self.follow_line(carried);
    }

    /// What a line, with its number, tells about identifications.
    fn identify_line(&mut self, line: &[u8], number: u8) {
        self.paired.follow(line, number, self.followed.settling, &mut self.seen.identified);
        if number == 7 {
            self.seen.identified.no_digit(line);
        }
    }

    /// A call of ticks with one input word, all lent one buffer.
    pub fn ticks(&mut self, count: u32, word: u32, lent: &mut [u8]) {
        self.seen.calls += 1;
        for _ in 0..count {
            self.tick(word, lent);
        }
    }

    fn tick(&mut self, word: u32, lent: &mut [u8]) {
        let answer = self.machine.tick(word, lent);
        self.seen.ticks += 1;
        self.seen.reply_bytes += answer.len as u64;
        self.seen.blocks.tick(&answer, word, lent);
        self.seen.identified.tick(front(lent, answer.len));
        self.seen.lent_to_ticks.mark(lent.len().min(LONGEST_LENT) as u8);
        self.seen.moves.pulses += answer.pulses.iter().any(|&pulse| pulse != 0) as u64;
        if answer.number != 0 {
            self.seen.number(answer.number);
            self.carrying.tick_number(answer.number);
        }
        self.follow_tick(answer.entry);
        self.followed.ticked(answer.len, self.status);
    }
}

#[cfg(test)]
mod tests {
    use super::*;
    use reference::line::with_line_end;

    fn send(observed: &mut Observed, line: &str) {
        with_line_end(line.as_bytes()).for_each(|byte| {
            observed.byte(byte, &mut [0; LONGEST_LENT]);
        });
    }

    #[test]
    fn blocks_are_counted_by_where_they_come_from() {
        let mut observed = Observed::power_on(0);
        for (line, ticks) in [("W0", 2_499), ("W0ABCDEF3", 0), ("W01", 2_499), ("Q06", 1), ("W0", 1), ("W4", 2_500)] {
            send(&mut observed, line);
            observed.ticks(ticks, 0, &mut [0; 120]);
        }
        observed.ticks(2, 0, &mut [0; 119]);
        let told = observed.into_seen().blocks.to_string();
        assert!(told.contains("blocks from bytes 2, from ticks 1, of these 0 with an entry"), "{told}");
        assert!(told.contains("ask for a block 3, replaced before it 2, cut off 0\n"), "{told}");
        assert!(told.contains("turned away by 2 2, of these 0 with an over-large word, by 3 0\n"), "{told}");
    }

    #[test]
    fn identifications_are_counted_by_where_they_come_back() {
        let mut observed = Observed::power_on(0);
        let lines = [("q0800000a", 0), ("Q0600000A", 0), ("P0900000b", 0), ("P00000015", 0), ("P0000001g", 0)];
        let near = [("P000000gG", 0), ("W0ABCDEFA", 1), ("W0ABCDEFa", 2_500), ("Q06", 0), ("W0abcdefa", 2_500)];
        let pair = [("W0abcdefA", 2_500), ("W4ABCDEFa", 2_500), ("W0ABCDEFA", 1)];
        for (line, ticks) in lines.into_iter().chain(near).chain(pair) {
            send(&mut observed, line);
            observed.ticks(ticks, 0, &mut [0; 120]);
        }
        let told = observed.into_seen().identified.to_string();
        for part in [
            "in replies: small letters 2, capitals 1, numerals 1, characters 4 of 22;",
            "; of twelve blocks small letters 1\n",
            "turn away: small letters 1, capitals 0, numerals 0, characters 1 of 22\n",
            "from ticks: small letters 2, capitals 1, numerals 0, characters 2 of 22\n",
            "ninth character alone 1, by 1 characters\n",
            "in the other case 2; W lines before the block of such a one 1, behind it 1\n",
            "  NOT MET: 0 in replies, 1 in replies,",
        ] {
            assert!(told.contains(part), "{part}\n{told}");
        }
    }
}
