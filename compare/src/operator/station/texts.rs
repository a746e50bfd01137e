//! The texts of a station's commands: speeds, and moves within reach.

use super::super::Operator;
use crate::bench::Bench;
use crate::random::Random;
use crate::station::{axis, comma, MOST_PPS};
use reference::command::LONGEST;

/// A distance is mostly no more pulses than this part of the ticks that are left.
const SHARE: u32 = 16;

/// A speed, mostly a high one.
pub(super) fn speed(random: &mut Random) -> String {
    let pps = match random.below(10) {
        0..=4 => MOST_PPS,
        5..=7 => random.between(MOST_PPS / 10, MOST_PPS),
        _ => random.spread(MOST_PPS),
    };
    format!("SPD {} {pps}", axis(random))
}

impl Operator {
    /// A distance of an axis as a station has it, a 0 at times with a sign.
    fn signed<B: Bench>(&mut self, bench: &B, axis: usize, distance: u32) -> String {
        let sign = if self.direction(bench, axis, distance) { "-" } else { "" };
        format!("{sign}{}{distance}", self.random.pick(&["", "", "", "0", "000"]))
    }

    /// A distance, mostly one for which there are ticks enough.
    fn station_distance<B: Bench>(&mut self, bench: &B) -> u32 {
        let most = (bench.ticks_left() / SHARE).clamp(1, self.usual_distance);
        match self.random.below(20) {
            0..=1 => 0,
            2..=3 => self.master_distance(),
            _ => self.random.spread(most),
        }
    }

    /// A move of one axis or of both, at times as long or all but as long.
    pub(super) fn move_text<B: Bench>(&mut self, bench: &B) -> String {
        let (one, any) = (self.station_distance(bench), self.station_distance(bench));
        let other = self.random.pick(&[one, (one + 1).min(LONGEST), any, any, any]);
        let (x, y) = (self.signed(bench, 0, one), self.signed(bench, 1, other));
        match self.random.below(5) {
            0 => format!("INC X {x}"),
            1 => format!("INC Y {y}"),
            _ => format!("LNI X {x}{}Y {y}", comma(&mut self.random)),
        }
    }
}
