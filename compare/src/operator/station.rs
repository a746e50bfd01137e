//! Moves as a station of the other bench make asks for them (paper 02, 8/14): most to their ends, the positions read
//! before and behind them.

mod positions;
mod texts;

use super::Operator;
use crate::bench::Bench;
use crate::bits::MOVING;
use crate::coverage::{End, Positions};
use crate::station::{lines, stop, MOST_PPS};
use texts::speed;

/// After so many runs of ticks a move is hurried.
const HURRIED: u32 = 10;

impl Operator {
    /// The lines of a command go in; the first number that turns one away, or 0, unless a byte of them is lost.
    fn give<B: Bench>(&mut self, bench: &mut B, command: &str) -> Option<u8> {
        let lines = lines(command);
        let sent: Vec<Option<u8>> = lines.iter().map(|line| Some(self.send_whole(bench, line)?.0)).collect();
        let numbers: Vec<u8> = sent.into_iter().collect::<Option<_>>()?;
        let number = numbers.into_iter().find(|&number| number != 0).unwrap_or(0);
        bench.stations().command(command, lines.len(), number);
        Some(number)
    }

    /// Runs ticks until the move ends, longer and longer ones; one that takes too many is hurried, and left in the end.
    fn run_to_end<B: Bench>(&mut self, bench: &mut B) {
        let least = bench.ticks_left() / 2;
        for runs in 1.. {
            if bench.machine().status() & MOVING == 0 || bench.ticks_left() <= least {
                return;
            }
            if runs % HURRIED == 0 {
                self.give(bench, &format!("SPD X {MOST_PPS}"));
            }
            self.run_some(bench, self.usual_run.saturating_mul(runs));
        }
    }

    /// What becomes of a move that has begun; where it came to its whole end the positions tell what was named.
    fn follow<B: Bench>(&mut self, bench: &mut B, text: &str, before: Option<Positions>, begun: u64) {
        if self.random.chance(8) {
            self.run_some(bench, self.usual_run);
            let stop = stop(&mut self.random);
            self.give(bench, &stop);
        }
        self.run_to_end(bench);
        let after = self.positions(bench);
        let moving = bench.machine().status() & MOVING != 0;
        match (before, after) {
            _ if moving || bench.moves_begun() > begun + 1 => bench.stations().end(End::Left),
            _ if bench.is_open() => bench.stations().end(End::Stopped),
            (Some(before), Some(after)) => bench.stations().whole(text, before, after),
            _ => bench.stations().end(End::Left),
        }
    }

    /// A move, mostly with a speed of its own, and mostly run to its end.
    pub(super) fn station_move<B: Bench>(&mut self, bench: &mut B) {
        if self.random.chance(60) {
            let speed = speed(&mut self.random);
            self.give(bench, &speed);
        }
        if self.random.chance(50) {
            self.set_slope(bench);
        }
        self.run_calm(bench, 1);
        let (before, begun) = (self.positions(bench), bench.moves_begun());
        let text = self.move_text(bench);
        if self.give(bench, &text) != Some(0) {
            return;
        }
        self.make_up_mind();
        if self.random.chance(8) {
            bench.stations().end(End::Left);
        } else {
            self.follow(bench, &text, before, begun);
        }
    }

    /// A command while a move runs: another move, all of whose lines are turned away, a speed or a stop.
    pub(super) fn station_under_way<B: Bench>(&mut self, bench: &mut B) {
        let command = match self.random.below(4) {
            0..=1 => self.move_text(bench),
            2 => speed(&mut self.random),
            _ => stop(&mut self.random),
        };
        self.give(bench, &command);
    }
}

#[cfg(test)]
mod tests {
    use crate::counted::Counted;
    use crate::coverage::Coverage;
    use crate::pair::Item;
    use crate::session::text_of;

    /// Short sessions.
    #[test]
    fn moves_of_every_kind_come_and_none_is_wrong() {
        let mut seen = Coverage::default();
        let short = (0..200).filter(|index| index % 20 != 19);
        short.for_each(|index| seen.add(&text_of(Item { seed: 1, index }).1));
        let told = seen.stations.to_string();
        assert_eq!(seen.stations.wrong(), None);
        assert!(["INC ", "LNI ", "SPD ", "SST ", "11: ", "15: "].iter().all(|part| told.contains(part)), "{told}");
        assert!(![" 0,", " 0\n"].iter().any(|none| told.contains(none)), "{told}");
    }
}
