//! A machine on a list of calls, with the digest that the replay library makes.

use crate::call::{Call, BYTE, CALL_BYTES, LONGEST_LENT, TICK, TICKS};
use crate::digest;
use crate::played::Played;
use reference::machine::LEAST_REPLY_BUFFER;

/// A machine and the digest of its answers so far.
pub struct Replay<M> {
    pub machine: M,
    pub digest: u32,
}

impl<M: Played> Replay<M> {
    /// Power-on, whose number begins the digest.
    pub fn power_on(switch: u8) -> Replay<M> {
        let (machine, number) = M::power_on(switch);
        Replay { machine, digest: digest::power_on(number) }
    }

    /// One received byte with the front part of a fresh array of zeros.
    fn byte(&mut self, call: Call) {
        let mut buffer = [0; LONGEST_LENT];
        let answer = self.machine.byte(call.received(), &mut buffer[..call.lent()]);
        self.digest = digest::after_byte(self.digest, answer, &buffer[..call.counted(answer.len)]);
    }

    /// One tick with a lent buffer.
    fn tick(&mut self, word: u32, lent: &mut [u8]) {
        let answer = self.machine.tick(word, lent);
        self.digest = digest::after_tick(self.digest, &answer, lent);
    }

    /// Ticks that are all lent one array, zeros at first.
    fn ticks(&mut self, count: u32, word: u32) {
        let mut buffer = [0; LEAST_REPLY_BUFFER];
        for _ in 0..count {
            self.tick(word, &mut buffer);
        }
    }

    /// One tick with the front part of a fresh array of zeros, all of which counts.
    fn single_tick(&mut self, call: Call) {
        let mut buffer = [0; LONGEST_LENT];
        let lent = &mut buffer[..call.lent()];
        self.tick(call.value, lent);
        self.digest = digest::after_bytes(self.digest, lent);
    }

    /// One call.
    pub fn call(&mut self, call: Call) {
        match call.kind {
            TICKS => self.ticks(call.count, call.value),
            BYTE => self.byte(call),
            TICK => self.single_tick(call),
            _ => self.digest = digest::after_readings(self.digest, self.machine.readings()),
        }
    }
}

/// A machine after all calls of a list; a rest of fewer than nine bytes is not read.
pub fn run<M: Played>(switch: u8, calls: &[u8]) -> Replay<M> {
    let mut replay = Replay::power_on(switch);
    for call in calls.chunks_exact(CALL_BYTES) {
        replay.call(Call::of_bytes(call));
    }
    replay
}

/// The digest of all answers of a machine to a list of calls.
pub fn replay<M: Played>(switch: u8, calls: &[u8]) -> u32 {
    run::<M>(switch, calls).digest
}

#[cfg(test)]
mod tests {
    use super::*;
    use crate::list;
    use crate::step::Step;
    use reference::{lists, Machine};

    /// A call as the page of stored lists has it.
    fn stored(call: &Call) -> lists::Call {
        let (word, lent) = (call.value, call.lent() as u8);
        match call.kind {
            TICKS => lists::Call::Ticks { count: call.count, word },
            BYTE => lists::Call::Byte { byte: call.received(), lent },
            TICK => lists::Call::Tick { word, lent },
            _ => lists::Call::Readings,
        }
    }

    /// The calls of a list; its trials alter nothing.
    fn calls_of(list: list::List) -> Vec<Call> {
        let (steps, _) = list::steps_of(list);
        let call = |step| if let Step::Call(call) = step { Some(call) } else { None };
        steps.into_iter().filter_map(call).collect()
    }

    #[test]
    fn the_digest_is_that_of_stored_lists() {
        for index in 0..16 {
            let list = list::plan(1, index);
            let calls = calls_of(list);
            let bytes: Vec<u8> = calls.iter().flat_map(Call::bytes).collect();
            let stored: Vec<lists::Call> = calls.iter().map(stored).collect();
            assert_eq!(replay::<Machine>(list.switch, &bytes), lists::play(list.switch, &stored));
        }
    }
}
