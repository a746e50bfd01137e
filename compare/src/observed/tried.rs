//! Trials on the reference machine, counted with what they met.

use super::Observed;
use crate::bits::{in_dwell, BY_SENSOR, HELD, MOVING, STOPPED};
use crate::coverage::Met;
use crate::trial::Asked;
use reference::machine::WATCH_FULL;
use reference::Trial;

impl Observed {
    /// What a trial meets, in the order of their names.
    fn met(&self) -> Met {
        let (status, at_rest) = (self.status, self.status & MOVING == 0);
        [
            !self.line.is_empty(),
            !at_rest,
            in_dwell(status),
            self.followed.waiting,
            at_rest && status & HELD != 0,
            at_rest && status & (STOPPED | BY_SENSOR) != 0,
            self.followed.settling,
        ]
    }

    /// The distances of the next move.
    pub fn distances(&self) -> [u32; 5] {
        self.followed.distances
    }

    /// Whether a full watch stops moves.
    pub fn watches_moves(&self) -> bool {
        self.followed.watch & 1 != 0
    }

    /// Whether no line has begun.
    pub fn between_lines(&self) -> bool {
        self.line.is_empty()
    }

    /// Whether a stop ended it: it is short of the master's distance.
    fn is_short(&self, asked: Asked, answer: &Trial) -> bool {
        let master = asked.master as usize;
        answer.end != 0 && answer.travels[master] < self.distances()[master]
    }

    /// Whether it still ran in the tick that fills the watch, which the start has set to 0.
    fn fills_watch(&self, asked: Asked, answer: &Trial) -> bool {
        let whole = answer.number == 0 && asked.ticks == WATCH_FULL;
        whole && self.watches_moves() && matches!(answer.end, 0 | WATCH_FULL)
    }

    /// A trial, which alters nothing.
    pub fn trial(&mut self, asked: Asked) -> Trial {
        let answer = asked.tried(&self.machine);
        let (short, watched) = (self.is_short(asked, &answer), self.fills_watch(asked, &answer));
        let met = self.met();
        self.carrying.tried();
        self.seen.trials.count(&answer, asked.ticks, met);
        self.seen.trials.short += short as u64;
        self.seen.trials.watched += watched as u64;
        answer
    }

    /// A trial is followed by the very start line and as many ticks.
    pub fn done(&mut self) {
        self.seen.trials.done += 1;
    }
}
