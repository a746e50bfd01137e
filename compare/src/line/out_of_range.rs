//! Lines of the right form whose value is out of its range.

use super::{dwell, high_on, low_on, polarity, slope, speed, start, watch, Order};
use crate::random::Random;
use reference::command::{FASTEST, HIGHEST_POLARITY, LONGEST_DWELL, ON_SETTING_BITS, STEEPEST};

/// A value after the last one of a range.
fn beyond(random: &mut Random, last: u32) -> u32 {
    if random.chance(50) {
        return last + 1;
    }
    random.between(last + 1, 0xFFFFF)
}

/// A value before or after a range that begins at 1.
fn outside(random: &mut Random, last: u32) -> u32 {
    if random.chance(50) {
        return 0;
    }
    beyond(random, last)
}

/// A low-ON or high-ON setting with a bit that is no input of the machine.
fn stray_input(random: &mut Random) -> u32 {
    random.below(0x4000) & ON_SETTING_BITS | random.pick(&[0x400, 0x800, 0x4000, 0x8000, 0x10000, 0x80000])
}

/// One of these lines.
pub fn out_of_range(random: &mut Random) -> Order {
    match random.below(8) {
        0 => speed(outside(random, FASTEST)),
        1 => slope(outside(random, STEEPEST)),
        2 => dwell(beyond(random, LONGEST_DWELL)),
        3 => watch(random.between(4, 15)),
        4 => polarity(beyond(random, HIGHEST_POLARITY)),
        5 => start(random.pick(&[5, 6, 7, 13, 14, 15])),
        6 => low_on(stray_input(random)),
        _ => high_on(stray_input(random)),
    }
}
