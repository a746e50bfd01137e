//! What is timed: the settings of the load, and lists of calls for both machines.

use crate::call::Call;
use crate::temixohuel::Controller;
use crate::{proved, replay};
use reference::machine::LEAST_REPLY_BUFFER;
use reference::Machine;

/// The length of the lent buffers: the least that takes every reply.
pub const LENT: usize = LEAST_REPLY_BUFFER;

/// The load of the floor: five crooked distances, limits that act while high, general outputs.
pub const SETTINGS: [&str; 9] =
    ["P007FFFF", "P01DFFFF", "P023FFFF", "P039FFFF", "P0412FD1", "Q0E033FF", "Q0D00000", "W0ABC000", "P0900FFF"];

/// Lines that bring the load to a tick at 250 kHz, at 2.5 kHz and at rest.
pub const LOADS: [&[&str]; 3] = [&["P08F4240", "Q080"], &["P0802710", "Q080"], &["P08F4240", "Q080", "Q09"]];

/// Ticks after which the ramp of the load is over.
pub const WARM_TICKS: u32 = 13_000;

/// The digest of all answers of a machine to a list of calls.
pub type Replayed = fn(u8, &[u8]) -> u32;

/// The proved libraries, a whole list in one call and call by call, and the reference.
pub const MACHINES: [(&str, Replayed); 3] = [
    ("replay library", proved::replay),
    ("firmware library", replay::replay::<Controller>),
    ("reference", replay::replay::<Machine>),
];

/// A list of calls in the making.
#[derive(Clone, Debug, Default)]
pub struct Calls(Vec<u8>);

impl Calls {
    /// The settings of the load.
    pub fn load() -> Calls {
        Calls::default().lines(&SETTINGS)
    }

    pub fn call(mut self, call: Call) -> Calls {
        self.0.extend_from_slice(&call.bytes());
        self
    }

    pub fn ticks(self, count: u32, word: u32) -> Calls {
        self.call(Call::ticks(count, word))
    }

    /// Received bytes, of whose buffers the reply alone counts: a line would else be little more than its digest.
    pub fn characters(self, text: &str) -> Calls {
        text.bytes().fold(self, |calls, byte| calls.call(Call::byte_for_reply(byte, LENT)))
    }

    pub fn line(self, line: &str) -> Calls {
        self.characters(line).call(LINE_END)
    }

    pub fn lines(self, lines: &[&str]) -> Calls {
        lines.iter().fold(self, |calls, line| calls.line(line))
    }

    pub fn bytes(&self) -> &[u8] {
        &self.0
    }
}

/// The byte 0D, which ends a line.
pub const LINE_END: Call = Call::byte_for_reply(reference::line::LINE_END, LENT);

/// Figures of two machines that answer in two ways would tell nothing.
pub fn must_agree(calls: &Calls) {
    let [list, call, theirs] = MACHINES.map(|(_, replay)| replay(0, calls.bytes()));
    assert_eq!([list, call], [theirs; 2], "a timed list is answered in two ways; sh compare/run.sh finds where");
}
