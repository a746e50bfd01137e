//! Stored lists: limits of every axis and direction, low-ON and high-ON.

use super::list_lines::distance_line;
use crate::text::Text;

/// Stops: one limit, low-ON or high-ON, with an axis that has none.
struct Limit {
    /// The limit's axis and the direction that it blocks.
    axis: u32,
    minus: bool,
    /// The code of its setting and the bit there.
    code: &'static str,
    bit: u32,
    /// An input word that leaves the axis free, and one that blocks it.
    free: u32,
    blocked: u32,
    /// An axis without a limit.
    other: u32,
}

impl Limit {
    /// Stops: the limit of an axis in one direction.
    fn of(low: bool, axis: u32, minus: bool) -> Limit {
        let bit = 1 << (2 * axis + u32::from(low != minus));
        let (code, free, blocked) = if low { ("Q0D", bit, 0) } else { ("Q0E", 0, bit) };
        Limit { axis, minus, code, bit, free, blocked, other: (axis + 2) % 5 }
    }

    /// Lines: a start with the limit's axis as master.
    fn start(&self) -> String {
        format!("Q08{}", self.axis)
    }

    /// Lines: a start with the other axis as master.
    fn other_start(&self) -> String {
        format!("Q08{}", self.other)
    }

    /// Lines: a distance of the limit's axis in the direction that it blocks.
    fn distance(&self, pulses: u32) -> String {
        distance_line(self.axis, self.minus, pulses)
    }

    /// Lines: a distance of the other axis.
    fn other_distance(&self, pulses: u32) -> String {
        distance_line(self.other, false, pulses)
    }

    /// Stops: the axis is a slave and meets its limit under way.
    fn met_by_a_slave(&self, text: &mut Text) {
        text.ticks(1, self.free);
        text.lines(&[&format!("{}{:05X}", self.code, self.bit), &self.distance(9)]);
        text.lines(&[&self.other_distance(0xC), &self.other_start()]);
        text.read_runs(&[(300, self.free), (1, self.blocked), (1, self.free), (400, self.free)]);
    }

    /// Turned away, 16: starts while the axis is blocked.
    fn met_at_rest(&self, text: &mut Text) {
        text.heading("refused while blocked, in either role; the other direction and distance 0 are free");
        text.ticks(1, self.blocked);
        text.read_lines(&[&self.other_start(), "Q06", &self.other_distance(0), &self.start()]);
        text.read_lines(&[&distance_line(self.axis, !self.minus, 9), &self.start()]);
        text.read_after(250, self.blocked);
        text.read_lines(&["Q09"]);
        text.ticks(300, self.blocked);
        text.lines(&[&self.distance(0), &self.other_distance(2), &self.other_start()]);
        text.read_after(350, self.blocked);
    }

    /// Stops: the axis is the master; then the limit is set off.
    fn met_by_the_master(&self, text: &mut Text) {
        text.heading("the axis is master and meets its limit in the first tick, and later");
        text.lines(&[&self.distance(9)]);
        text.ticks(1, self.free);
        text.lines(&[&self.start()]);
        text.read_after(1, self.blocked);
        text.ticks(1, self.free);
        text.lines(&[&self.start()]);
        text.read_runs(&[(200, self.free), (300, self.blocked)]);
        let no_distance = distance_line(self.axis, false, 0);
        text.lines(&[&no_distance, &self.other_distance(0), &format!("{}00000", self.code), "Q06"]);
    }
}

/// Stops: one kind of limit on every axis and in both directions, with master and with slave blocked.
pub(super) fn limits(text: &mut Text, low: bool) {
    let name = if low { "low-ON" } else { "high-ON" };
    for minus in [true, false] {
        let direction = if minus { "minus" } else { "plus" };
        let words = format!("Limits {name} that block {direction}: each axis as slave and as master");
        text.fast_list(0x00, 0x00, &words, &[]);
        for axis in 0..5 {
            let limit = Limit::of(low, axis, minus);
            limit.met_by_a_slave(text);
            limit.met_at_rest(text);
            limit.met_by_the_master(text);
        }
        text.end();
    }
}

/// Stops: limits of all axes at once, against idle axes, set under way.
pub(super) fn limits_together(text: &mut Text) {
    text.fast_list(
        0x00,
        0x00,
        "Limits: idle axes are never blocked; settings changed under way; all limits at once",
        &["Q0D003FF", "Q0E003FF", "P0000009", "Q080"],
    );
    text.read_after(1, 0x3FF);
    text.lines(&["Q0D003FC", "Q0E003FC", "P0180000", "P0200000", "Q080"]);
    text.read_runs(&[(200, 0), (100, 0x3FD)]);
    text.heading("a limit set under way shows in bit 4 at once; it stops the move only if a tick meets it");
    text.read_lines(&["Q0E003FD", "Q06", "Q0E003FC", "Q06"]);
    text.read_after(1, 0x3FD);
    text.read_lines(&["Q0E003FD", "Q06"]);
    text.read_runs(&[(1, 0x3FC), (1, 0x3FD)]);
    text.read_lines(&["Q0E00000", "Q0D00000", "Q06"]);
    text.read_after(400, 0x3FD);
    status_bit_4(text);
    text.end();
}

/// Stops: whose distances status bit 4 reads.
fn status_bit_4(text: &mut Text) {
    text.heading("status bit 4 reads the running move's distances, else the next move's");
    text.read_lines(&["Q0D00002", "P0080005", "Q06", "P0000005", "Q06"]);
    text.read_after(1, 0);
    text.read_lines(&["Q06", "Q080", "P0080005", "Q06", "Q080"]);
    text.read_after(100, 2);
    text.read_lines(&["Q0E00002", "Q06", "Q0E00001", "Q06"]);
    text.read_after(100, 2);
    text.read_lines(&["Q0E00002", "Q06"]);
    text.read_runs(&[(1, 2), (300, 0)]);
}
