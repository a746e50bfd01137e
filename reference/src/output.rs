//! Lines of output (chapter 5).

use crate::inputs::bit;

/// Lines of output: switch 8-B and D-F give each line followed by its inverse.
pub fn with_inverse(switch: u8) -> bool {
    switch >= 8
}

/// Lines of output: switch 4-7 and D-F give a plus pulse and a minus pulse; 0-3 and 8-B a pulse and a direction.
pub fn plus_and_minus_pulses(switch: u8) -> bool {
    (4..=7).contains(&switch) || (13..=15).contains(&switch)
}

/// Lines of output: the pair of one axis before polarity; `pulse` is 0 in the second half of the tick.
pub fn axis_pair(switch: u8, pulse: i8, minus: bool) -> (bool, bool) {
    if plus_and_minus_pulses(switch) {
        (pulse == 1, pulse == -1)
    } else {
        (pulse != 0, minus)
    }
}

/// Lines of output: polarity bits 2k, 2k+1 flip the pair.
pub fn flipped_pair(pair: (bool, bool), polarity: u32, axis: usize) -> (bool, bool) {
    let k = axis as u32;
    (pair.0 != bit(polarity, 2 * k), pair.1 != bit(polarity, 2 * k + 1))
}

/// One bit of a word is given a value.
pub fn put_bit(word: u32, number: u32, value: bool) -> u32 {
    if value {
        word | (1 << number)
    } else {
        word & !(1 << number)
    }
}

/// Lines of output: the pair at 2k and 2k+1, or at 4k and 4k+2 with each line followed by its inverse.
pub fn put_pair(word: u32, switch: u8, axis: usize, pair: (bool, bool)) -> u32 {
    let k = axis as u32;
    if with_inverse(switch) {
        let word = put_bit(word, 4 * k, pair.0);
        let word = put_bit(word, 4 * k + 1, !pair.0);
        let word = put_bit(word, 4 * k + 2, pair.1);
        put_bit(word, 4 * k + 3, !pair.1)
    } else {
        let word = put_bit(word, 2 * k, pair.0);
        put_bit(word, 2 * k + 1, pair.1)
    }
}

/// Lines of output: one 24-bit word; bits without a pump line are the general outputs.
pub fn output_word(switch: u8, pulses: [i8; 5], minus: [bool; 5], polarity: u32, general: u32) -> u32 {
    let mut word = general & 0xFFFFFF;
    for axis in 0..5 {
        let pair = axis_pair(switch, pulses[axis], minus[axis]);
        word = put_pair(word, switch, axis, flipped_pair(pair, polarity, axis));
    }
    word
}

/// Lines of output: first and second half of the tick; pulse lines rest in the second.
pub fn output_words(switch: u8, pulses: [i8; 5], minus: [bool; 5], polarity: u32, general: u32) -> [u32; 2] {
    let first = output_word(switch, pulses, minus, polarity, general);
    let second = output_word(switch, [0; 5], minus, polarity, general);
    [first, second]
}
