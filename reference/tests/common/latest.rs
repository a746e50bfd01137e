//! The latest move of a list, known from its accepted lines and the answers of its ticks alone.

use reference::Entry;

/// A move: its distances and master, what the ticks since its start answered, and, since its last carry-on where it has
/// one, its ticks and whether a stop has begun.
#[derive(Clone, Default)]
pub struct Move {
    pub distances: [u32; 5],
    pub master: usize,
    pub stored: bool,
    pub carried: u32,
    pub stop_begun: bool,
    pub ticks: u64,
    pub refused_ticks: u32,
    pub signed_pulses: [i32; 5],
    /// A distance line was accepted after its start, which is after its end.
    pub distance_line: bool,
}

impl Move {
    pub fn travels(&self) -> [u32; 5] {
        self.signed_pulses.map(i32::unsigned_abs)
    }

    /// The master has gone its whole distance.
    pub fn is_whole(&self) -> bool {
        self.travels()[self.master] == self.distances[self.master]
    }

    /// Paper 02, 6/14: what a carry-on leaves: pulses since the start go on, ticks and stops begin again.
    pub fn carry_on(&mut self) {
        self.carried += 1;
        (self.stop_begun, self.ticks, self.refused_ticks) = (false, 0, 0);
    }

    /// The entry of this move, where it has ended.
    pub fn entry(&self) -> Entry {
        Entry { ticks: self.ticks, cause: u8::from(!self.is_whole()), travels: self.signed_pulses }
    }

    /// A move ends by itself only where it is whole. A whole one, stopped and carried on or not, has every axis at its
    /// distance, and all send their last pulse in one tick.
    pub fn check_end(&self, last_pulses: [i8; 5]) {
        assert!(self.stop_begun || self.is_whole());
        if self.is_whole() {
            assert_eq!(self.travels(), self.distances);
            assert_eq!(last_pulses.map(|pulse| pulse != 0), self.distances.map(|distance| distance > 0));
        }
    }
}
