//! Journal: numbers in groups of seven bits, low group first, top bit set on all but the last, shortest form only.

use super::{CUT_SHORT, NO_SPELLING};

/// Journal: the most groups of a number; the last of them never has its top bit set.
const MOST_GROUPS: usize = 7;

/// Journal: the top bit of a group, set where another follows.
const MORE: u8 = 0x80;

/// Journal: signed n is stored as 2n, or -2n - 1 below zero.
pub(super) fn number_of_signed(n: i32) -> u64 {
    let wide = n as i64;
    let number = if wide < 0 { -2 * wide - 1 } else { 2 * wide };
    number as u64
}

/// Journal: the signed n that is stored as a number; even ones are 2n, odd ones -2n - 1.
pub(super) fn signed_of_number(number: u64) -> i32 {
    let half = (number / 2) as i32;
    if number & 1 == 0 {
        half
    } else {
        -half - 1
    }
}

/// Journal: the groups of a number, shortest form.
pub(super) fn groups(number: u64) -> Vec<u8> {
    let mut bytes = Vec::new();
    let mut rest = number;
    while rest >= MORE as u64 {
        bytes.push(rest as u8 | MORE);
        rest >>= 7;
    }
    bytes.push(rest as u8);
    bytes
}

/// Journal: the number at a place and the place after it; 23 where it is cut short, 24 for a longer spelling or a
/// seventh group with its top bit set.
pub(super) fn read_number(bytes: &[u8], at: usize) -> Result<(u64, usize), u8> {
    let mut number = 0;
    for place in 0..MOST_GROUPS {
        let group = *bytes.get(at + place).ok_or(CUT_SHORT)?;
        number |= ((group & !MORE) as u64) << (7 * place);
        if group & MORE == 0 {
            let longer = group == 0 && place > 0;
            return if longer { Err(NO_SPELLING) } else { Ok((number, at + place + 1)) };
        }
    }
    Err(NO_SPELLING)
}
