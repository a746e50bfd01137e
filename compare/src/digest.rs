//! The digest of all answers, as `temixohuel_replay` makes it.

use crate::played::Readings;
use reference::digest::mix;
use reference::journal::Entry;
use reference::{front, ByteAnswer, TickAnswer};

/// Positions join the digest with this added.
const POSITION_OFFSET: i64 = 524_288;

/// The digest after power-on has answered its number.
pub fn power_on(number: u8) -> u32 {
    mix(0, number as u32, 0, 0)
}

/// The entry of a tick joins by its numbers: ticks in two halves, cause, travels raised by 2 to the 31.
fn after_entry(digest: u32, entry: &Entry) -> u32 {
    let [a, b, c, d, e] = entry.travels.map(|travel| (travel as u32).wrapping_add(1 << 31));
    let counted = mix(digest, entry.ticks as u32, (entry.ticks >> 32) as u32, entry.cause as u32);
    mix(mix(counted, a, b, c), d, e, 0)
}

/// Bytes join one by one.
pub fn after_bytes(digest: u32, bytes: &[u8]) -> u32 {
    bytes.iter().fold(digest, |digest, &byte| mix(digest, byte as u32, 0, 0))
}

/// The digest after a tick: the block in its lent buffer; its entry; then both words, and the pulses as digits of base
/// 3 with the number above them.
pub fn after_tick(digest: u32, answer: &TickAnswer, lent: &[u8]) -> u32 {
    let mut code = 256 * answer.number as u32;
    for (pulse, weight) in answer.pulses.iter().zip([1, 3, 9, 27, 81]) {
        code += weight * if *pulse < 0 { 2 } else { *pulse as u32 };
    }
    let shown = after_bytes(digest, front(lent, answer.len));
    let entered = answer.entry.iter().fold(shown, after_entry);
    mix(entered, answer.words[0], answer.words[1], code)
}

/// The digest after a received byte: the length of the reply, the number, and what counts of the lent buffer.
pub fn after_byte(digest: u32, answer: ByteAnswer, counted: &[u8]) -> u32 {
    after_bytes(mix(digest, answer.len as u32, answer.number as u32, 0), counted)
}

/// The digest after the readings: travel and position of each axis, then status, speed and slope.
pub fn after_readings(digest: u32, told: Readings) -> u32 {
    let axis = |digest, axis: usize| {
        mix(digest, told.travels[axis], (told.positions[axis] + POSITION_OFFSET) as u32, axis as u32)
    };
    mix((0..5).fold(digest, axis), told.status, told.speed, told.slope)
}
