//! The calls of a list as `temixohuel_replay` reads them, nine bytes each.

use reference::machine::LEAST_REPLY_BUFFER;
use std::fmt;

/// The bytes of one call.
pub const CALL_BYTES: usize = 9;

/// The longest buffer that a call can lend.
pub const LONGEST_LENT: usize = 255;

/// One call: `count` ticks with the input word `value`, all lent the same 120 bytes; a received byte or one tick with a
/// lent buffer of any length; or the readings.
#[derive(Clone, Copy, Debug, PartialEq, Eq)]
pub struct Call {
    pub kind: u8,
    pub value: u32,
    pub count: u32,
}

/// The kind of `count` ticks.
pub const TICKS: u8 = 0;

/// The kind of a received byte.
pub const BYTE: u8 = 1;

/// The kind of one tick with a lent buffer of any length, all of which counts afterwards.
pub const TICK: u8 = 3;

/// From this count on the reply alone counts of a lent buffer.
const REPLY_ALONE: u32 = 256;

impl Call {
    /// The readings: every other kind.
    pub const READINGS: Call = Call { kind: 2, value: 0, count: 0 };

    /// `count` ticks with one input word, which may be over-large.
    pub fn ticks(count: u32, word: u32) -> Call {
        Call { kind: TICKS, value: word, count }
    }

    /// One tick with an input word, which may be over-large, and a lent buffer of `lent` bytes.
    pub fn tick(word: u32, lent: usize) -> Call {
        Call { kind: TICK, value: word, count: lent as u32 }
    }

    /// One received byte with a lent buffer of `lent` bytes, all of which count afterwards.
    pub const fn byte(byte: u8, lent: usize) -> Call {
        Call { kind: BYTE, value: byte as u32, count: lent as u32 }
    }

    /// The same, of whose buffer the reply alone counts.
    pub const fn byte_for_reply(byte: u8, lent: usize) -> Call {
        Call { count: REPLY_ALONE + lent as u32, ..Call::byte(byte, lent) }
    }

    /// The byte that a call of kind 1 receives; the digits above it are not read.
    pub fn received(&self) -> u8 {
        (self.value % 256) as u8
    }

    /// The length of the buffer that the call lends.
    pub fn lent(&self) -> usize {
        if self.kind == TICKS {
            return LEAST_REPLY_BUFFER;
        }
        (self.count % 256) as usize
    }

    /// How many bytes of the buffer of a call of kind 1 count afterwards, after a reply of `reply` bytes.
    pub fn counted(&self, reply: usize) -> usize {
        if self.count < REPLY_ALONE {
            self.lent()
        } else {
            reply
        }
    }

    /// The call's nine bytes, low byte first.
    pub fn bytes(&self) -> [u8; CALL_BYTES] {
        let mut bytes = [self.kind; CALL_BYTES];
        bytes[1..5].copy_from_slice(&self.value.to_le_bytes());
        bytes[5..9].copy_from_slice(&self.count.to_le_bytes());
        bytes
    }

    /// The call of nine bytes.
    pub fn of_bytes(bytes: &[u8]) -> Call {
        let number = |at: usize| u32::from_le_bytes([bytes[at], bytes[at + 1], bytes[at + 2], bytes[at + 3]]);
        Call { kind: bytes[0], value: number(1), count: number(5) }
    }
}

impl fmt::Display for Call {
    fn fmt(&self, f: &mut fmt::Formatter) -> fmt::Result {
        match self.kind {
            TICKS => write!(f, "{} ticks with word {:06X}", self.count, self.value),
            TICK => write!(f, "a tick with word {:06X}, {} lent", self.value, self.lent()),
            BYTE => {
                write!(f, "byte {:02X} '{}', {} lent", self.received(), self.received().escape_ascii(), self.lent())
            }
            _ => write!(f, "readings"),
        }
    }
}
