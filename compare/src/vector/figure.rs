//! `F`, `U` and `G`: figures that are units exactly, figures next to them, and any others.

use super::near;
use crate::random::Random;
use reference::command::{FASTEST, STEEPEST};
use reference::vectors::LARGEST_WHOLE;

/// The largest settings, and how many quarters a unit has.
const SPEED: (char, u32, u64) = ('V', FASTEST, 1);
const SLOPE: (char, u32, u64) = ('A', STEEPEST, 5);

/// What an exponent has added.
const ADDED: i32 = 2_048;

/// A quarter as a power of two.
const QUARTER: i32 = -2;

/// A figure as m and its exponent.
type Pair = (u64, i32);

/// The same value with a longer m, as far as there is room.
fn lengthened(random: &mut Random, (m, exponent): Pair) -> Pair {
    let room = LARGEST_WHOLE.checked_div(m).map_or(0, u64::ilog2);
    let places = if random.chance(50) { room } else { random.below(room + 1) };
    (m << places, exponent - places as i32)
}

/// So many quarters, or what stands right beside them in f64.
fn quarters(random: &mut Random, count: u64) -> Pair {
    let (m, exponent) = lengthened(random, (count, QUARTER));
    match random.below(4) {
        0 => (m + 1, exponent),
        1 => (m.saturating_sub(1), exponent),
        _ => (m, exponent),
    }
}

/// Any m with an exponent near the range of settings, or any exponent.
fn anything(random: &mut Random) -> Pair {
    let m = random.bits() >> random.between(10, 63);
    if random.chance(70) {
        (m, random.below(90) as i32 - 70)
    } else {
        (m, random.below(4_096) as i32 - ADDED)
    }
}

pub fn read_back(random: &mut Random) -> String {
    let (kind, last, unit) = random.pick(&[SPEED, SLOPE]);
    let (m, exponent) = match random.below(10) {
        0..=5 => {
            let count = near(random, last) as u64 * unit;
            quarters(random, count)
        }
        6..=7 => {
            let count = random.spread(5_000_000) as u64;
            quarters(random, count)
        }
        _ => anything(random),
    };
    let sign = random.pick(&['+', '+', '+', '+', '+', '+', '+', '+', '-', 'N']);
    format!("F {kind} {sign} {m:014X} {:03X}", exponent + ADDED)
}

pub fn shown(random: &mut Random) -> String {
    let (kind, last, _) = random.pick(&[SPEED, SLOPE]);
    let count = if random.chance(50) { near(random, last) } else { random.bits() as u32 };
    format!("U {kind} {count:08X}")
}

pub fn pair(random: &mut Random) -> String {
    let (speed, slope) = (near(random, SPEED.1) % (1 << 20), near(random, SLOPE.1) % (1 << 20));
    format!("G {speed:05X} {slope:05X}")
}
