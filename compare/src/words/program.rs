//! The words of the second table: `opening`, `master` with ties, zeros and large distances, `ticks` at their bounds and
//! `trial` at its three.

use super::number::{about, decimal, hexadecimal, spelled};
use crate::random::Random;
use crate::trial::LAST_MASTER;
use reference::bench::MOST_TICKS;
use reference::command::LONGEST;
use reference::machine::INPUT_WORD_END;

const AXES: usize = 5;

/// Distances of which some are equal; those over 32 bits all count as the greatest of these.
fn master(random: &mut Random) -> String {
    let most = random.pick(&[2, LONGEST, u32::MAX - 1]);
    let (one, other) = (random.below(most) as u128, random.below(most) as u128);
    let count = if random.chance(94) { AXES } else { random.below(8) as usize };
    let distances = (0..count).map(|_| {
        let any = about(random, u32::MAX - 1);
        let distance = random.pick(&[0, one, one, one, one + 1, other, other, any]);
        format!(" {}", spelled(random, distance))
    });
    format!("master{}", distances.collect::<String>())
}

fn ticks(random: &mut Random) -> String {
    let count = decimal(random, MOST_TICKS);
    if random.chance(35) {
        return format!("ticks {count}");
    }
    format!("ticks {count} {}", hexadecimal(random, INPUT_WORD_END - 1))
}

/// A master, ticks and an input word of a trial, or the first ones of them; seldom none or one too many.
fn trial(random: &mut Random) -> String {
    let numbers = [
        decimal(random, LAST_MASTER),
        decimal(random, MOST_TICKS),
        hexadecimal(random, INPUT_WORD_END - 1),
        decimal(random, MOST_TICKS),
    ];
    let count = if random.chance(96) { random.pick(&[1, 2, 3, 3, 3]) } else { random.pick(&[0, 4]) };
    format!("trial {}", numbers[..count].join(" "))
}

/// Words in one of the forms.
pub fn form(random: &mut Random) -> String {
    match random.below(30) {
        0 => "opening".to_string(),
        1..=9 => master(random),
        10..=19 => ticks(random),
        _ => trial(random),
    }
}

#[cfg(test)]
mod tests {
    use super::*;
    use reference::trial::check;
    use std::collections::BTreeSet;

    /// Which of the three bounds a trial of three numbers is beyond.
    fn beyond(words: &str) -> Option<[bool; 3]> {
        let [_, master, ticks, word] = words.split(' ').collect::<Vec<_>>().try_into().ok()?;
        let (master, ticks) = (master.parse::<u128>().ok()?, ticks.parse::<u128>().ok()?);
        let word = u128::from_str_radix(word, 16).ok()?;
        let number = |master, word, ticks| check(master, word, ticks).is_err();
        let narrow = |number: u128| number.min(u32::MAX.into()) as u32;
        Some([number(narrow(master), 0, 0), number(0, narrow(word), 0), number(0, 0, narrow(ticks))])
    }

    #[test]
    fn bounds_of_trials_come_in_all_combinations() {
        let mut random = Random::of_item(1, 0, 0);
        let found: BTreeSet<_> = (0..2_000).filter_map(|_| beyond(&trial(&mut random))).collect();
        assert_eq!(found.len(), 8);
    }
}
