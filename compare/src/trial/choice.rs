//! Trials of every kind: mostly doses that start, with as many ticks as they take, one fewer or one more.

use super::Asked;
use crate::bits::{EMERGENCY, LIMITS, SENSOR};
use crate::observed::Observed;
use crate::random::Random;
use reference::bench::MOST_TICKS;
use reference::machine::INPUT_WORD_END;
use reference::pick_master;

/// The highest master.
pub const LAST_MASTER: u32 = 4;

/// So many ticks at most have trials that do not mind the end.
const SOME: u32 = 4_000;

/// An end is looked for in so many ticks, then in more.
const NEAR: [u32; 3] = [300, 2_500, 20_000];

/// Of the other doses that take long one in so many is tried to the end.
const UNWATCHED: u32 = 250;

/// Mostly the longest axis; at times another, or none of the five.
fn master(random: &mut Random, distances: [u32; 5]) -> u32 {
    match random.below(25) {
        0 => random.pick(&[5, 9, 255, u32::MAX]),
        1..=4 => random.below(5),
        _ => pick_master(distances) as u32,
    }
}

/// Mostly the usual word; at times with some inputs the other way, or any word, or one that is over-large.
fn word(random: &mut Random, usual: u32) -> u32 {
    let limit = 1 << random.below(10);
    match random.below(50) {
        0 => random.pick(&[INPUT_WORD_END, INPUT_WORD_END, u32::MAX]),
        1..=2 => 0,
        3..=4 => INPUT_WORD_END - 1,
        5..=6 => random.below(INPUT_WORD_END),
        7..=16 => usual ^ random.pick(&[SENSOR, SENSOR, EMERGENCY, limit, limit, LIMITS]),
        _ => usual,
    }
}

/// A dose as it is tried; one in `watched` of those that meet the full watch is tried until then.
struct Dose<'a> {
    observed: &'a Observed,
    master: u32,
    word: u32,
    watched: u32,
}

impl Dose<'_> {
    /// The tick that ends it, looked for in so many ticks and then in more; there is none if it is turned away.
    fn end(&self, most: &[u32]) -> Option<u32> {
        let Dose { master, word, .. } = *self;
        let end = |&ticks: &u32| Asked { master, word, ticks }.tried(self.observed.machine()).end;
        most.iter().map(end).find(|&end| end != 0)
    }

    /// The end, or the tick before or behind it.
    fn beside(random: &mut Random, end: u32) -> u32 {
        random.pick(&[end - 1, end, end + 1]).min(MOST_TICKS)
    }

    /// The most ticks, the last of which fills the watch, and one fewer; or an end far off.
    fn far(&self, random: &mut Random) -> u32 {
        match self.end(&[MOST_TICKS]) {
            Some(end) if random.chance(50) => Dose::beside(random, end),
            _ => random.pick(&[MOST_TICKS, MOST_TICKS, MOST_TICKS - 1]),
        }
    }

    /// Whether a full watch finds it running: in 4 s it goes no further than the speed setting, in quarters of a hertz.
    fn meets_watch(&self) -> bool {
        let distance = self.observed.distances().get(self.master as usize).copied();
        self.observed.watches_moves() && distance > Some(self.observed.machine().speed())
    }

    /// As many ticks as it takes, one fewer or one more. One that takes long is at times tried to the end.
    fn about_end(&self, random: &mut Random) -> u32 {
        let seldom = if self.meets_watch() { self.watched } else { UNWATCHED };
        match self.end(&NEAR) {
            Some(end) => Dose::beside(random, end),
            None if random.below(seldom) == 0 => self.far(random),
            None => random.spread(SOME),
        }
    }

    fn ticks(&self, random: &mut Random) -> u32 {
        match random.below(2_000) {
            0 => self.far(random),
            1..=20 => random.pick(&[MOST_TICKS + 1, MOST_TICKS + 1, u32::MAX]),
            21..=100 => 0,
            101..=180 => 1,
            181..=1_400 => self.about_end(random),
            _ => random.spread(SOME),
        }
    }
}

/// A number up to the last of a range, or one behind it.
fn within_or_behind(random: &mut Random, last: u32) -> u32 {
    if random.chance(50) {
        return random.spread(last);
    }
    random.pick(&[last + 1, last + 1, u32::MAX])
}

/// What 3, 25 and 10 turn away, in any combination.
fn any_bounds(random: &mut Random) -> Asked {
    let mut number = |last| within_or_behind(random, last);
    Asked { master: number(LAST_MASTER), word: number(INPUT_WORD_END - 1), ticks: number(MOST_TICKS) }
}

/// A trial on the machine as it is. The usual word is mostly one under which nothing acts; one in `watched` doses that
/// meet the full watch is tried until then.
pub fn chosen(random: &mut Random, observed: &Observed, usual: u32, watched: u32) -> Asked {
    if random.chance(1) {
        return any_bounds(random);
    }
    let master = master(random, observed.distances());
    let word = word(random, usual);
    let ticks = Dose { observed, master, word, watched }.ticks(random);
    Asked { master, word, ticks }
}
