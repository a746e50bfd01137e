//! `A` and `J`: entries at, next to and far from the ends of their ranges; journals of some, whole and damaged.

use crate::random::Random;
use crate::touch::Touch;
use reference::journal::{STORED_TRAVELS, TICKS};
use reference::vectors::{LONGEST_LINE_BUFFER, MOST_JOURNAL_BYTES};

/// The bits of a group, and the bit above them where another follows.
const GROUP_BITS: u32 = 7;
const MORE: u8 = 0x80;

/// The seven numbers of an entry: ticks, cause, five travels as they are stored.
type Numbers = [u64; 7];

/// 0 to `last`: the ends, what is next to them, the ends of each count of groups, any length in bits.
fn within(random: &mut Random, last: u64) -> u64 {
    let few = random.below(3) as u64;
    let number = match random.below(10) {
        0 => few,
        1 => last - few.min(last),
        2..=4 => (1 << (GROUP_BITS * random.between(1, 6))) + few - 1,
        _ => random.bits() >> random.between(last.leading_zeros(), 63),
    };
    number.min(last)
}

/// What is next to a range that ends with `last`, and any number past it up to `most`.
fn past(random: &mut Random, last: u64, most: u64) -> u64 {
    let any = random.bits() >> random.between(most.leading_zeros(), 63);
    random.pick(&[last + 1, last + 1, last + 2, most, any, any]).clamp(last + 1, most)
}

/// An entry within its ranges, whose stored travels go up to `most`.
fn numbers(random: &mut Random, most: u64) -> Numbers {
    let mut numbers = [0; 7].map(|_: u64| within(random, most));
    numbers[0] = within(random, *TICKS.end()).max(1);
    numbers[1] = random.below(2) as u64;
    numbers
}

/// One of the numbers is put past its range; the most that each may be is given.
fn put_past(random: &mut Random, numbers: &mut Numbers, most: [u64; 3]) {
    let at = random.pick(&[0, 0, 1, 1, 2, 3, 4, 5, 6]);
    numbers[at] = match at {
        0 if random.chance(40) => 0,
        0 => past(random, *TICKS.end(), most[0]),
        1 => past(random, 1, most[1]),
        _ => past(random, *STORED_TRAVELS.end(), most[2]),
    };
}

/// The groups of a number of any size.
fn groups(mut number: u64) -> Vec<u8> {
    let mut bytes = Vec::new();
    while number >= MORE as u64 {
        bytes.push(number as u8 | MORE);
        number >>= GROUP_BITS;
    }
    bytes.push(number as u8);
    bytes
}

fn spelled(numbers: Numbers) -> Vec<u8> {
    numbers.into_iter().flat_map(groups).collect()
}

/// A stored travel as a field; 0 has either sign.
fn travel(random: &mut Random, stored: u64) -> String {
    let minus = stored % 2 == 1 || stored == 0 && random.chance(30);
    format!("{}{:08X}", if minus { '-' } else { '+' }, stored.div_ceil(2))
}

/// A place, and the length of a buffer about the end of so many bytes there.
fn room(random: &mut Random, size: u32) -> (u32, u32) {
    let longest = LONGEST_LINE_BUFFER as u32;
    let (near, any) = (random.below(longest - size), random.below(256));
    let place = random.pick(&[0, 0, near, near, near, near, any]);
    let end = place + size;
    let short = random.below(longest + 1);
    let length = random.pick(&[end, end, end, end + 1, end - 1, end - 1, place, longest, short]);
    (place, length.min(longest))
}

/// The writer's line. Of a travel that is stored as 2 to the 32 less 1 the field would have no form.
pub fn written(random: &mut Random) -> String {
    let most = random.pick(&[1, 127, *STORED_TRAVELS.end(), *STORED_TRAVELS.end()]);
    let mut numbers = numbers(random, most);
    let (place, length) = room(random, spelled(numbers).len() as u32);
    if random.chance(25) {
        put_past(random, &mut numbers, [u64::MAX, 255, u32::MAX as u64 - 1]);
    }
    let [ticks, cause, travels @ ..] = numbers;
    let travels = travels.map(|stored| travel(random, stored)).join(" ");
    format!("A {length:02X} {place:02X} {ticks:016X} {cause:02X} {travels}")
}

/// A number is spelled longer: by one group of 0, or by more.
fn lengthen(random: &mut Random, bytes: &mut Vec<u8>) {
    let lasts: Vec<usize> = (0..bytes.len()).filter(|&at| bytes[at] < MORE).collect();
    let at = random.pick(&lasts);
    bytes[at] |= MORE;
    let more = random.pick(&[0, 0, 0, 1, 2, 5, 6, 7]);
    bytes.splice(at + 1..at + 1, [vec![MORE; more], vec![0]].concat());
}

/// One byte is replaced, dropped or put in.
fn touch(random: &mut Random, bytes: &mut Vec<u8>) {
    let at = random.below(bytes.len() as u32) as usize;
    let any = random.below(256) as u8;
    let byte = random.pick(&[any, any, 0, 1, 2, MORE, bytes[at] ^ MORE, bytes[at].wrapping_add(1)]);
    random.pick(&[Touch::Replace, Touch::Replace, Touch::Drop, Touch::PutIn]).apply(bytes, at, || byte);
}

/// A journal of one to three entries, one of which may have a number past its range; the place of each, and of its end.
fn journal(random: &mut Random) -> (Vec<u8>, Vec<usize>) {
    let most = random.pick(&[1, 127, 127, 16_383, *STORED_TRAVELS.end()]);
    let (mut bytes, mut places) = (Vec::new(), vec![0]);
    for _ in 0..random.between(1, 3) {
        let mut numbers = numbers(random, most);
        if random.chance(15) {
            put_past(random, &mut numbers, [u64::MAX; 3]);
        }
        bytes.extend(spelled(numbers));
        places.push(bytes.len());
    }
    (bytes, places)
}

/// The reader's line: a journal whole, touched, cut or lengthened, read from an entry of it, from its end or anywhere.
pub fn read(random: &mut Random) -> String {
    let (mut bytes, places) = journal(random);
    match random.below(10) {
        0..=4 => {}
        5..=6 => touch(random, &mut bytes),
        7 => bytes.truncate(random.below(bytes.len() as u32 + 1) as usize),
        _ => lengthen(random, &mut bytes),
    }
    bytes.truncate(MOST_JOURNAL_BYTES);
    let (one, any) = (random.pick(&places), random.below(256) as usize);
    let near = random.below(bytes.len() as u32 + 3) as usize;
    let place = random.pick(&[0, 0, 0, one, one, one, near, any]);
    let digits: String = bytes.iter().map(|byte| format!("{byte:02X}")).collect();
    format!("J {place:02X} {digits}")
}

#[cfg(test)]
mod tests {
    use super::*;
    use reference::vectors::answer;

    /// How many of so many lines are answered with each word.
    fn words(line: fn(&mut Random) -> String, word: &str) -> usize {
        let mut random = Random::of_item(1, 0, 0);
        let answers = (0..10_000).map(|_| answer(line(&mut random).as_bytes()));
        answers.filter(|answer| answer.split([' ', '\n']).next() == Some(word)).count()
    }

    #[test]
    fn every_answer_of_the_writer_comes() {
        assert_eq!(words(written, "?"), 0);
        assert!(["00", "22", "24"].iter().all(|word| words(written, word) > 1_000));
    }

    #[test]
    fn every_answer_of_the_reader_comes() {
        assert_eq!(words(read, "?"), 0);
        assert!(["00", "--", "23", "24"].iter().all(|word| words(read, word) > 500));
    }
}
