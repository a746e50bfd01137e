//! Stored lists: a list is played to a fresh controller, and what its calls answer is mixed into the digest.

use super::Call;
use crate::digest::mix;
use crate::journal::Entry;
use crate::machine::{front, ByteAnswer, Machine, TickAnswer, LEAST_REPLY_BUFFER};

/// Stored lists: power-on is mixed into 0.
fn power_on_digest(number: u8) -> u32 {
    mix(0, number as u32, 0, 0)
}

/// Stored lists: each byte of a block or of a whole lent buffer.
fn bytes_digest(digest: u32, bytes: &[u8]) -> u32 {
    bytes.iter().fold(digest, |digest, &byte| mix(digest, byte as u32, 0, 0))
}

/// Stored lists: the answer of a received byte, then each byte of the whole lent buffer.
fn byte_digest(digest: u32, answer: ByteAnswer, buf: &[u8]) -> u32 {
    bytes_digest(mix(digest, answer.len as u32, answer.number as u32, 0), buf)
}

/// Stored lists: a pulse is 0, 1, or 2 for -1.
fn pulse_figure(pulse: i8) -> u32 {
    match pulse {
        0 => 0,
        1 => 1,
        _ => 2,
    }
}

/// Stored lists: p0 + 3 p1 + 9 p2 + 27 p3 + 81 p4 + 256 × number.
fn pulses_and_number(answer: &TickAnswer) -> u32 {
    let mut sum = 256 * answer.number as u32;
    let mut weight = 1;
    for pulse in answer.pulses {
        sum += weight * pulse_figure(pulse);
        weight *= 3;
    }
    sum
}

/// Stored lists: a signed travel with 2,147,483,648 added.
fn travel_figure(travel: i32) -> u32 {
    (travel as i64 + 2_147_483_648) as u32
}

/// Stored lists: both halves of an entry's ticks and its cause, then travels of axes 0, 1 and 2, then of 3 and 4.
pub fn entry_digest(digest: u32, entry: &Entry) -> u32 {
    let [t0, t1, t2, t3, t4] = entry.travels.map(travel_figure);
    let digest = mix(digest, entry.ticks as u32, (entry.ticks >> 32) as u32, entry.cause as u32);
    mix(mix(digest, t0, t1, t2), t3, t4, 0)
}

/// Stored lists: the block of a tick where it answers one, then its entry likewise, then words, pulses and number.
fn tick_digest(digest: u32, answer: &TickAnswer, buf: &[u8]) -> u32 {
    let digest = bytes_digest(digest, front(buf, answer.len));
    let digest = answer.entry.iter().fold(digest, entry_digest);
    mix(digest, answer.words[0], answer.words[1], pulses_and_number(answer))
}

/// Stored lists: the readings, axis by axis, then status, speed setting and slope setting.
fn readings_digest(mut digest: u32, machine: &Machine) -> u32 {
    let (travels, positions) = (machine.travels(), machine.positions());
    for axis in 0..5 {
        digest = mix(digest, travels[axis], (positions[axis] + 524_288) as u32, axis as u32);
    }
    mix(digest, machine.status(), machine.speed(), machine.slope())
}

/// Stored lists: a received byte with its lent buffer of zero bytes.
fn play_byte(machine: &mut Machine, digest: u32, byte: u8, lent: u8) -> u32 {
    let mut whole = [0; 255];
    let buf = &mut whole[..lent as usize];
    let answer = machine.byte(byte, buf);
    byte_digest(digest, answer, buf)
}

/// Stored lists: so many ticks with one input word, each with 120 bytes lent.
fn play_ticks(machine: &mut Machine, mut digest: u32, count: u32, word: u32) -> u32 {
    let mut buf = [0; LEAST_REPLY_BUFFER];
    for _ in 0..count {
        let answer = machine.tick(word, &mut buf);
        digest = tick_digest(digest, &answer, &buf);
    }
    digest
}

/// Stored lists: one tick with its lent buffer of zero bytes; last comes each byte of that whole buffer.
fn play_tick(machine: &mut Machine, digest: u32, word: u32, lent: u8) -> u32 {
    let mut whole = [0; 255];
    let buf = &mut whole[..lent as usize];
    let answer = machine.tick(word, buf);
    bytes_digest(tick_digest(digest, &answer, buf), buf)
}

/// Stored lists: one call is played.
fn play_call(machine: &mut Machine, digest: u32, call: Call) -> u32 {
    match call {
        Call::Byte { byte, lent } => play_byte(machine, digest, byte, lent),
        Call::Ticks { count, word } => play_ticks(machine, digest, count, word),
        Call::Tick { word, lent } => play_tick(machine, digest, word, lent),
        Call::Readings => readings_digest(digest, machine),
    }
}

/// Stored lists: a list is played to a fresh controller of this switch; its digest.
pub fn play(switch: u8, calls: &[Call]) -> u32 {
    let (mut machine, number) = Machine::power_on(switch);
    let mut digest = power_on_digest(number);
    for &call in calls {
        digest = play_call(&mut machine, digest, call);
    }
    digest
}
