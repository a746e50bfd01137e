//! Journal (paper 02, 1/14): the entry of a move, the writer that appends it and the reader of an entry.

mod number;

use crate::command::LONGEST;
use number::{groups, number_of_signed, read_number, signed_of_number};
use std::ops::RangeInclusive;

/// Journal: ticks moved, 1 to 2 to the power 45, less 1.
pub const TICKS: RangeInclusive<u64> = 1..=(1 << 45) - 1;

/// Journal: the cause where m reached M.
pub const COMPLETE: u8 = 0;

/// Journal: the cause of any other end.
pub const STOPPED: u8 = 1;

/// Journal: the causes.
pub const CAUSES: RangeInclusive<u64> = COMPLETE as u64..=STOPPED as u64;

/// Journal: a signed travel as it is stored; a travel is at most the longest distance, either way.
pub const STORED_TRAVELS: RangeInclusive<u64> = 0..=2 * LONGEST as u64;

/// Journal: the number of an entry without space.
pub const NO_SPACE: u8 = 22;

/// Journal: the number of bytes that are cut short.
pub const CUT_SHORT: u8 = 23;

/// Journal: the number of a longer spelling, a seventh group with its top bit set, or a value out of range.
pub const NO_SPELLING: u8 = 24;

/// Journal: the entry of a move.
#[derive(Clone, Copy, Debug, PartialEq, Eq)]
pub struct Entry {
    /// Ticks moved, the ending one included.
    pub ticks: u64,
    /// 0 where m reached M, else 1, stopped.
    pub cause: u8,
    /// The five signed travels.
    pub travels: [i32; 5],
}

/// Journal: a number that is out of its range is 24.
fn in_range(number: u64, range: RangeInclusive<u64>) -> Result<u64, u8> {
    if range.contains(&number) {
        Ok(number)
    } else {
        Err(NO_SPELLING)
    }
}

/// Journal: the seven numbers of an entry, in order: ticks, cause, the five signed travels as they are stored.
fn numbers_of(entry: &Entry) -> [u64; 7] {
    let [t0, t1, t2, t3, t4] = entry.travels.map(number_of_signed);
    [entry.ticks, entry.cause as u64, t0, t1, t2, t3, t4]
}

/// Journal: the ranges of the seven numbers.
fn ranges() -> [RangeInclusive<u64>; 7] {
    std::array::from_fn(|place| match place {
        0 => TICKS,
        1 => CAUSES,
        _ => STORED_TRAVELS,
    })
}

/// Journal: the one spelling of an entry, or 24 where a value is out of range.
pub fn spelling(entry: &Entry) -> Result<Vec<u8>, u8> {
    let mut bytes = Vec::new();
    for (number, range) in numbers_of(entry).into_iter().zip(ranges()) {
        bytes.extend(groups(in_range(number, range)?));
    }
    Ok(bytes)
}

/// Journal: the writer appends an entry at a place of the buffer; the place after it and 0, or the given place and a
/// number with nothing altered: 24 where a value is out of range, then 22 where the whole entry has no space.
pub fn append(buf: &mut [u8], at: usize, entry: &Entry) -> (usize, u8) {
    let bytes = match spelling(entry) {
        Ok(bytes) => bytes,
        Err(number) => return (at, number),
    };
    match buf.get_mut(at..).and_then(|rest| rest.get_mut(..bytes.len())) {
        Some(space) => {
            space.copy_from_slice(&bytes);
            (at + bytes.len(), 0)
        }
        None => (at, NO_SPACE),
    }
}

/// Journal: the seven numbers at a place and the place after them, judged number by number.
fn read_numbers(bytes: &[u8], at: usize) -> Result<([u64; 7], usize), u8> {
    let mut numbers = [0; 7];
    let mut next = at;
    for (number, range) in numbers.iter_mut().zip(ranges()) {
        let (read, after) = read_number(bytes, next)?;
        *number = in_range(read, range)?;
        next = after;
    }
    Ok((numbers, next))
}

/// Journal: the entry of seven numbers that are in their ranges.
fn entry_of(numbers: [u64; 7]) -> Entry {
    let [ticks, cause, t0, t1, t2, t3, t4] = numbers;
    Entry { ticks, cause: cause as u8, travels: [t0, t1, t2, t3, t4].map(signed_of_number) }
}

/// Journal: the reader of the entry at a place; the entry and the place after it, `None` at the journal's end, or 23
/// or 24.
pub fn read(bytes: &[u8], at: usize) -> Result<Option<(Entry, usize)>, u8> {
    if at >= bytes.len() {
        return Ok(None);
    }
    let (numbers, next) = read_numbers(bytes, at)?;
    Ok(Some((entry_of(numbers), next)))
}
