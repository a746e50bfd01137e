//! What lines and ticks have led to: moves that begin, causes that stop them, ends.

use super::Observed;
use crate::bits::{BLOCKED, BY_SENSOR, HELD, MOVING, STOPPED};
use crate::coverage::Cause;
use reference::journal::Entry;

impl Observed {
    fn begin_move(&mut self) {
        self.seen.moves.starts += 1;
        self.carrying.begin();
        self.stop_begun = false;
    }

    /// What a line has led to, and whether it has carried a move on.
    pub(super) fn follow_line(&mut self, carried: bool) {
        let before = std::mem::replace(&mut self.status, self.machine.status());
        if carried {
            self.seen.moves.carry_ons += 1;
            self.stop_begun = false;
        } else if self.status & !before & MOVING != 0 {
            self.begin_move();
        }
        if self.status & !before & STOPPED != 0 {
            self.seen.moves.cause(Cause::Order);
            self.stop_begun = true;
        }
    }

    /// A stored start shows by bit 1, or, where the move ends in its first tick, by the entry.
    pub(super) fn follow_tick(&mut self, entry: Option<Entry>) {
        let before = std::mem::replace(&mut self.status, self.machine.status());
        let started = before & MOVING == 0 && (self.status & MOVING != 0 || entry.is_some());
        if started {
            self.begin_move();
            self.seen.moves.stored_starts += 1;
        }
        if before & MOVING == 0 && !started {
            return;
        }
        self.follow_causes(if started { before & HELD } else { before });
        if let Some(entry) = entry {
            self.seen.moves.end(&entry, self.stop_begun);
            self.end_carried(&entry);
        }
    }

    /// Bits 3, 5 and 6 rise as a cause meets the move; a tick's bit 3 is a limit where bit 4 shows one, else the watch.
    fn follow_causes(&mut self, before: u32) {
        let risen = self.status & !before;
        if risen & STOPPED != 0 {
            let watch = if self.followed.watch_set { Cause::Watch } else { Cause::PowerOnWatch };
            self.seen.moves.cause(if self.status & BLOCKED != 0 { Cause::Limit } else { watch });
        }
        if risen & HELD != 0 {
            self.seen.moves.cause(Cause::Emergency);
        }
        if risen & BY_SENSOR != 0 {
            self.seen.moves.cause(Cause::Sensor);
        }
        self.stop_begun |= self.status & (STOPPED | HELD | BY_SENSOR) != 0;
    }
}
