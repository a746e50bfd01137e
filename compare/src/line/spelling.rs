//! How an order is spelled: every form of its line.

use super::{Order, SIX};
use crate::identification::{letter, mostly, other_case};
use crate::random::Random;

/// The characters of a command without an identification, some silent, with so many digits beyond the needed ones.
fn begun(random: &mut Random, order: &Order, more: usize) -> Vec<u8> {
    let mut line = vec![order.letter, if random.chance(12) { b'4' } else { b'0' }];
    line.extend_from_slice(order.digits.as_bytes());
    line.extend((0..more).map(|_| random.digit()));
    if random.chance(30) {
        line[2..].make_ascii_lowercase();
    }
    line
}

/// The characters of a command, mostly to be answered, some silent, some with digits beyond the needed ones, some with
/// an identification, which is now and then none.
pub fn spelled(random: &mut Random, order: &Order) -> Vec<u8> {
    if order.most == SIX && random.chance(30) {
        return identified(random, order);
    }
    let free = order.most.saturating_sub(order.digits.len());
    let some = free > 0 && random.chance(40);
    let more = if some { random.between(1, free as u32) as usize } else { 0 };
    begun(random, order, more)
}

/// A line of six digits with an identification, which is now and then none.
pub fn identified(random: &mut Random, order: &Order) -> Vec<u8> {
    let mut line = begun(random, order, SIX - order.digits.len());
    line.push(mostly(random));
    line
}

/// A line of six digits with a letter as identification, and the same in the other case. The query of the inputs sets
/// the outputs then.
pub fn in_two_cases(random: &mut Random, order: &Order) -> [Vec<u8>; 2] {
    let line = begun(random, order, SIX - order.digits.len());
    let letter = letter(random);
    let other = other_case(letter).unwrap_or(letter);
    [letter, other].map(|identification| [line.as_slice(), &[identification]].concat())
}

/// Whether two lines differ in the case of the identification alone.
pub fn are_in_two_cases(one: &[u8], other: &[u8]) -> bool {
    match (one, other) {
        ([digits @ .., one], [same @ .., other]) => {
            digits.len() == 2 + SIX && digits == same && other_case(*one) == Some(*other)
        }
        _ => false,
    }
}

#[cfg(test)]
mod tests {
    use super::super::{inputs, outputs, status};
    use super::*;
    use reference::line::read_line;

    #[test]
    fn two_cases_are_two_identifications_of_one_command() {
        let mut random = Random::of_item(1, 0, 0);
        for order in [inputs(), outputs(0xABCDEF), status()] {
            let [one, other] = in_two_cases(&mut random, &order);
            assert!(are_in_two_cases(&one, &other) && !are_in_two_cases(&one, &one));
            let [one, other] = [one, other].map(|line| read_line(&line).expect("each is a line"));
            assert_eq!((one.command, one.digits), (other.command, other.digits));
            assert_ne!(one.identification, other.identification);
        }
    }
}
