//! Both machines on the steps of a list, each answer compared.

use crate::call::{Call, BYTE, LONGEST_LENT, TICK, TICKS};
use crate::journal::Journal;
use crate::played::{Played, Readings};
use crate::step::Step;
use crate::temixohuel::Controller;
use crate::trial::Asked;
use reference::line::LINE_END;
use reference::{ByteAnswer, Machine, TickAnswer, Trial};
use std::fmt;

/// What one step answers, of a received byte and of a tick with the whole lent buffer.
#[derive(Debug, PartialEq, Eq)]
enum Answer {
    Tick(TickAnswer, Vec<u8>),
    Byte(ByteAnswer, Vec<u8>),
    Readings(Readings),
    Trial(Trial),
}

impl fmt::Display for Answer {
    fn fmt(&self, f: &mut fmt::Formatter) -> fmt::Result {
        match self {
            Answer::Tick(answer, lent) => write!(f, "{answer:?}, buffer '{}'", lent.escape_ascii()),
            Answer::Byte(answer, lent) => write!(f, "{answer:?}, buffer '{}'", lent.escape_ascii()),
            Answer::Readings(told) => write!(f, "{told:?}"),
            Answer::Trial(told) => write!(f, "{told:?}"),
        }
    }
}

/// What a buffer holds before it is lent: no two bytes are alike.
const UNLIKE: [u8; LONGEST_LENT] = {
    let mut bytes = [0; LONGEST_LENT];
    let mut at = 0;
    while at < LONGEST_LENT {
        bytes[at] = at as u8 ^ 0x80;
        at += 1;
    }
    bytes
};

/// A machine's answer to one call, of ticks to a single one.
fn answer(machine: &mut impl Played, call: Call) -> Answer {
    let lent = || UNLIKE[..call.lent()].to_vec();
    match call.kind {
        TICKS | TICK => {
            let mut lent = lent();
            Answer::Tick(machine.tick(call.value, &mut lent), lent)
        }
        BYTE => {
            let mut lent = lent();
            Answer::Byte(machine.byte(call.received(), &mut lent), lent)
        }
        _ => Answer::Readings(machine.readings()),
    }
}

/// Both machines, the journal of the entries that they answer, the last trial, and what has been done since.
pub struct Both {
    ours: Controller,
    theirs: Machine,
    journal: Journal,
    tried: Trial,
    /// The number of the last line, and the ticks of the move that has ended behind it, or 0.
    number: u8,
    end: u64,
}

impl Both {
    /// Power-on, or the difference in words.
    pub fn power_on(switch: u8) -> Result<Both, String> {
        let ((ours, our), (theirs, their)) = (Controller::power_on(switch), Machine::power_on(switch));
        if our != their {
            return Err(format!("power-on: library answers number {our}, reference {their}\n"));
        }
        Ok(Both { ours, theirs, journal: Journal::default(), tried: Trial::default(), number: 0, end: 0 })
    }

    /// What both answer, or the difference in words.
    fn alike(&self, our: Answer, their: Answer) -> Result<Answer, String> {
        if our != their {
            let after = &self.theirs;
            return Err(format!("library:   {our}\nreference: {their}\nreference after it: {after:?}\n"));
        }
        Ok(our)
    }

    /// One call, of ticks a single one, whose entry joins the journal; or the difference in words.
    fn call(&mut self, call: Call) -> Result<(), String> {
        let (our, their) = (answer(&mut self.ours, call), answer(&mut self.theirs, call));
        match self.alike(our, their)? {
            Answer::Tick(TickAnswer { entry: Some(entry), .. }, _) => {
                self.end = entry.ticks;
                self.journal.append(entry)
            }
            Answer::Byte(answer, _) if call.received() == LINE_END => {
                (self.number, self.end) = (answer.number, 0);
                Ok(())
            }
            _ => Ok(()),
        }
    }

    /// A trial on both.
    fn trial(&mut self, asked: Asked) -> Result<(), String> {
        let Asked { master, word, ticks } = asked;
        self.tried = self.theirs.trial(master, word, ticks);
        let our = Played::trial(&self.ours, master, word, ticks);
        self.alike(Answer::Trial(our), Answer::Trial(self.tried)).map(|_| ())
    }

    /// What was done leaves what the trial told.
    fn as_tried(&mut self) -> Result<(), String> {
        self.call(Call::READINGS)?;
        let Readings { travels, positions, .. } = self.ours.readings();
        let done = match self.number {
            0 => Trial { number: 0, end: self.end as u32, travels, positions },
            number => Trial { number, ..Trial::default() },
        };
        if done != self.tried {
            return Err(format!("told by the trial: {:?}\ndone: {done:?}\n", self.tried));
        }
        Ok(())
    }

    /// One step, of ticks a single one, or the difference in words.
    pub fn step(&mut self, step: Step) -> Result<(), String> {
        match step {
            Step::Call(call) => self.call(call),
            Step::Trial(asked) => self.trial(asked),
            Step::AsTried => self.as_tried(),
        }
    }

    /// The journal read back at the list's end, or the difference in words.
    pub fn read_back(&self) -> Result<(), String> {
        self.journal.read_back()
    }
}

#[cfg(test)]
mod tests {
    use super::*;
    use reference::line::with_line_end;

    const ASKED: Asked = Asked { master: 0, word: 0, ticks: 207 };

    fn send(both: &mut Both, line: &str) {
        for byte in with_line_end(line.as_bytes()) {
            both.call(Call::byte(byte, 120)).expect("both answer alike");
        }
    }

    /// Both with a move of one pulse set, which ends in tick 207, a trial of it, the start, and so many ticks.
    fn done(ticks: u32) -> Both {
        let mut both = Both::power_on(0).expect("both begin alike");
        ["P0000001", "P0180001", "P08F4240", "P0900FFF"].iter().for_each(|line| send(&mut both, line));
        both.step(Step::Trial(ASKED)).expect("both tell the same");
        send(&mut both, "Q080");
        (0..ticks).for_each(|_| both.step(Step::Call(Call::ticks(1, 0))).expect("both answer alike"));
        both
    }

    #[test]
    fn what_is_done_otherwise_than_tried_is_found() {
        assert_eq!(done(207).step(Step::AsTried), Ok(()));
        assert!(done(206).step(Step::AsTried).is_err());
        assert!(done(0).step(Step::AsTried).is_err());
    }
}
