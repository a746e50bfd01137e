//! Numbers of commands: about the ends of both ranges, where fewer bits begin again, and far beyond.

use crate::random::Random;
use crate::words::{about, spelled};

/// The ends of speeds and of distances, and the first numbers beyond them.
const ENDS: [u128; 6] = [0, 1, 250_000, 250_001, 524_287, 524_288];

/// What 32 and 64 bits take for 0, and a number of 100 bits.
const FAR: [u128; 3] = [1 << 32, 1 << 64, 10_u128.pow(30)];

/// A number, mostly about a range from 0 or 1 to `last`, at times with zeros before it; now and then none.
pub fn number(random: &mut Random, last: u32) -> String {
    let few = random.below(5) as u128;
    let number = match random.below(20) {
        0..=4 => random.pick(&ENDS),
        5..=6 => random.pick(&FAR) + few - 2,
        _ => about(random, last),
    };
    spelled(random, number)
}

#[cfg(test)]
mod tests {
    use super::*;
    use reference::command::LONGEST;

    #[test]
    fn each_end_and_what_is_next_to_the_far_ones_comes() {
        let mut random = Random::of_item(1, 0, 0);
        let drawn: Vec<String> = (0..20_000).map(|_| number(&mut random, LONGEST)).collect();
        let next_to = FAR.iter().flat_map(|far| far - 2..=far + 2);
        for number in ENDS.into_iter().chain(next_to).map(|number| number.to_string()) {
            assert!(drawn.contains(&number), "{number}");
        }
        assert!(drawn.contains(&"00524287".to_string()));
    }
}
