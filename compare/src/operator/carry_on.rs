//! Carrying on (paper 02, 6/14): what comes between a stop and a carry-on, and carry-ons at odd moments.

use super::{any_axis, Operator};
use crate::bench::Bench;
use crate::identification::near;
use crate::line::{self, Order};
use reference::command::LONGEST;
use reference::machine::TICKS_PER_MS;

impl Operator {
    /// The line; true if the move goes on.
    pub(super) fn carry_on<B: Bench>(&mut self, bench: &mut B) -> bool {
        let goes_on = self.order(bench, line::carry_on());
        if goes_on {
            self.make_up_mind();
        }
        goes_on
    }

    /// What turns a carry-on away is put right, and it comes again.
    pub(super) fn carry_on_again<B: Bench>(&mut self, bench: &mut B) {
        if !self.carry_on(bench) && bench.is_open() {
            let status = bench.machine().status();
            self.put_right(bench, status);
            self.carry_on(bench);
        }
    }

    /// Whether a stopped move is to go on now: seldom one that has sent no pulse.
    pub(super) fn likes_to_go_on<B: Bench>(&mut self, bench: &B) -> bool {
        let percent = if bench.machine().travels() == [0; 5] { 20 } else { 65 };
        bench.is_open() && self.random.chance(percent)
    }

    /// Inputs act in the last tick before a carry-on.
    pub(super) fn carry_on_in_alarm<B: Bench>(&mut self, bench: &mut B) {
        let word = self.alarm_word();
        let count = self.random.between(1, 3);
        bench.run(&mut self.random, count, word);
        self.carry_on(bench);
    }

    /// A stopped move goes on: at once, or after things that leave it as it is; at times after one that does not, or
    /// while inputs act.
    pub(super) fn go_on<B: Bench>(&mut self, bench: &mut B) {
        if self.random.chance(55) {
            for _ in 0..self.random.between(1, 3) {
                self.leave_open(bench);
            }
        }
        match self.random.below(100) {
            0..=9 => self.some_distance(bench),
            10..=23 => self.carry_on_in_alarm(bench),
            _ => {}
        }
        self.carry_on_again(bench);
    }

    /// The same in a dwell: at once, with a start that waits and is dropped, or behind one that fails.
    pub(super) fn go_on_in_dwell<B: Bench>(&mut self, bench: &mut B) {
        match self.random.below(10) {
            0 => {}
            1..=5 => {
                self.wait_open(bench, self.master);
                let most = TICKS_PER_MS * self.dwell_ms.max(1) / 2;
                self.run_some(bench, most);
            }
            6..=8 => self.fail_open(bench),
            _ => self.leave_open(bench),
        }
        self.carry_on_again(bench);
    }

    /// A start waits, with the distances of the stopped move.
    fn wait_open<B: Bench>(&mut self, bench: &mut B, master: usize) {
        self.order(bench, line::start_after_dwell(master));
    }

    /// It fails as the dwell runs out: its master is the wrong one, or an input acts.
    fn fail_open<B: Bench>(&mut self, bench: &mut B) {
        let whole = TICKS_PER_MS * self.dwell_ms.max(1);
        let (wrong, alarm, calm) = (any_axis(&mut self.random), self.alarm_word(), self.calm_word());
        let (master, word) = if self.random.chance(60) { (wrong, calm) } else { (self.master, alarm) };
        self.wait_open(bench, master);
        self.run_calm(bench, whole / 2);
        bench.run(&mut self.random, whole, word);
    }

    /// One of the things that leave a stopped move to be carried on.
    fn leave_open<B: Bench>(&mut self, bench: &mut B) {
        match self.random.below(24) {
            0..=4 => self.set_something(bench),
            5..=6 => self.set_speed(bench),
            7..=12 => {
                let order = self.order_beside(bench);
                self.order(bench, order);
            }
            13..=14 => self.cut_distance(bench),
            15 => self.mistake(bench),
            16 => self.read(bench),
            17 => bench.oddity(&mut self.random),
            18 => self.settle(bench),
            _ => self.run_some(bench, 300),
        }
    }

    /// An order that alters nothing of a stopped move, or a start that is turned away.
    fn order_beside<B: Bench>(&mut self, bench: &B) -> Order {
        match self.random.below(6) {
            0..=1 => line::reset_positions(),
            2 => line::stop(),
            3 => line::clear_wrong_master(),
            _ => self.wrong_start(bench),
        }
    }

    /// A start whose master is not the longest axis, or none.
    fn wrong_start<B: Bench>(&mut self, bench: &B) -> Order {
        let (distances, axis) = (bench.directed(), any_axis(&mut self.random));
        let longer = distances.iter().any(|&(distance, _)| distance > distances[axis].0);
        line::start(if longer { axis } else { self.random.pick(&[5, 6, 7, 13, 14, 15]) })
    }

    /// A distance line as it was accepted last.
    fn distance_again<B: Bench>(&mut self, bench: &B) -> Order {
        let axis = any_axis(&mut self.random);
        let (distance, minus) = bench.directed()[axis];
        line::distance(axis, minus, distance)
    }

    /// One that keeps a stopped move from being carried on, though it mostly sets what is set and may be silent.
    fn some_distance<B: Bench>(&mut self, bench: &mut B) {
        let (axis, distance) = (any_axis(&mut self.random), self.random.spread(LONGEST));
        let same = self.distance_again(bench);
        let order = if self.random.chance(75) { same } else { line::distance(axis, false, distance) };
        let mut line = line::spelled(&mut self.random, &order);
        if self.random.chance(40) {
            line[1] = b'4';
        }
        bench.send(&mut self.random, &line);
    }

    /// One that lost its last digits, or with what is no identification behind them.
    fn cut_distance<B: Bench>(&mut self, bench: &mut B) {
        let order = self.distance_again(bench);
        let mut line = line::spelled(&mut self.random, &order);
        if self.random.chance(30) {
            line.truncate(8);
            line.push(near(&mut self.random));
        } else {
            line.truncate(self.random.between(3, 7) as usize);
        }
        bench.send(&mut self.random, &line);
    }
}

#[cfg(test)]
mod tests {
    use crate::counted::Counted;
    use crate::coverage::Coverage;
    use crate::list::{plan, steps_of};
    use crate::pair::Item;
    use crate::session::text_of;

    /// The counts that are 0 after short sessions and lists.
    #[test]
    fn carry_ons_of_every_kind_come() {
        let mut seen = Coverage::default();
        let short = (0..200).filter(|index| index % 20 != 19);
        short.for_each(|index| seen.add(&text_of(Item { seed: 1, index }).1));
        let lists = (256..300).map(|index| plan(1, index)).filter(|list| list.ticks <= 200_000);
        lists.for_each(|list| seen.add(&steps_of(list).1));
        let told = seen.carried.to_string().replace("17: 0", "");
        assert!(![" 0,", " 0;", " 0\n"].iter().any(|none| told.contains(none)), "{told}");
    }
}
