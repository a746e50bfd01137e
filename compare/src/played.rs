//! The two machines that are compared, asked alike: the proved controller through its firmware library, its trials
//! through the trial library; the reference.

use crate::temixohuel::{self, Controller};
use reference::journal::Entry;
use reference::{ByteAnswer, Machine, TickAnswer, Trial};

/// What a machine tells and no call alters.
#[derive(Clone, Copy, Debug, PartialEq, Eq)]
pub struct Readings {
    pub travels: [u32; 5],
    pub positions: [i64; 5],
    pub status: u32,
    pub speed: u32,
    pub slope: u32,
}

/// A machine that lists of calls are played to.
pub trait Played: Sized {
    fn power_on(switch: u8) -> (Self, u8);
    fn byte(&mut self, b: u8, lent: &mut [u8]) -> ByteAnswer;
    fn tick(&mut self, word: u32, lent: &mut [u8]) -> TickAnswer;
    fn readings(&self) -> Readings;
    fn trial(&self, master: u32, word: u32, ticks: u32) -> Trial;
}

/// What the library has for an entry in the answer of a tick that ends no move.
pub const NO_ENTRY: temixohuel::Entry = temixohuel::Entry { ticks: 0, cause: 0, travels: [0; 5] };

impl From<temixohuel::Entry> for Entry {
    fn from(entry: temixohuel::Entry) -> Entry {
        let temixohuel::Entry { ticks, cause, travels } = entry;
        Entry { ticks, cause, travels }
    }
}

impl From<Entry> for temixohuel::Entry {
    fn from(entry: Entry) -> temixohuel::Entry {
        let Entry { ticks, cause, travels } = entry;
        temixohuel::Entry { ticks, cause, travels }
    }
}

impl From<temixohuel::TrialAnswer> for Trial {
    fn from(answer: temixohuel::TrialAnswer) -> Trial {
        let temixohuel::TrialAnswer { positions, travels, end, number } = answer;
        Trial { number, end, travels, positions }
    }
}

/// The entry of a tick. One without an end that is not all zeros is told as no machine's, so that it differs from any.
fn entry_of(answer: &temixohuel::TickAnswer) -> Option<Entry> {
    match (answer.ended, answer.entry == NO_ENTRY) {
        (true, _) => Some(answer.entry.into()),
        (false, true) => None,
        (false, false) => Some(Entry { ticks: u64::MAX, ..answer.entry.into() }),
    }
}

impl Played for Controller {
    fn power_on(switch: u8) -> (Controller, u8) {
        Controller::power_on(switch)
    }

    fn byte(&mut self, b: u8, lent: &mut [u8]) -> ByteAnswer {
        let answer = Controller::byte(self, lent, b);
        ByteAnswer { len: answer.length, number: answer.number }
    }

    fn tick(&mut self, word: u32, lent: &mut [u8]) -> TickAnswer {
        let answer = Controller::tick(self, lent, word);
        let (words, entry, len) = ([answer.first, answer.second], entry_of(&answer), answer.length as usize);
        TickAnswer { pulses: answer.pulses, words, number: answer.number, entry, len }
    }

    fn readings(&self) -> Readings {
        let (travels, positions, status) = (self.travels(), self.positions(), self.status() as u32);
        Readings { travels, positions, status, speed: self.speed(), slope: self.slope() }
    }

    fn trial(&self, master: u32, word: u32, ticks: u32) -> Trial {
        Controller::trial(self, master, word, ticks).into()
    }
}

impl Played for Machine {
    fn power_on(switch: u8) -> (Machine, u8) {
        Machine::power_on(switch)
    }

    fn byte(&mut self, b: u8, lent: &mut [u8]) -> ByteAnswer {
        Machine::byte(self, b, lent)
    }

    fn tick(&mut self, word: u32, lent: &mut [u8]) -> TickAnswer {
        Machine::tick(self, word, lent)
    }

    fn readings(&self) -> Readings {
        let (travels, positions, status) = (self.travels(), self.positions().map(i64::from), self.status());
        Readings { travels, positions, status, speed: self.speed(), slope: self.slope() }
    }

    fn trial(&self, master: u32, word: u32, ticks: u32) -> Trial {
        reference::trial(self, master, word, ticks)
    }
}
