//! The blending controller for firmware in Rust: link target/staticlib/libfirmware.a (`ci/build.sh firmware`), and for
//! `trial` also target/staticlib/libtrial.a (`ci/build.sh trial`).
//!
//! What include/temixohuel.h asks of a caller in C is here a type: the field of `Controller` is private, so that only
//! power-on and calls make one, and `&mut` keeps calls and memory apart. The numbers are those of the header. A journal
//! is bytes of the caller's: `append` and `read` take any.

/// A controller of the library. No byte of it means anything here.
#[repr(C)]
#[derive(Clone, Copy)]
struct Opaque([u32; 64]);

/// A move that ended: ticks since its start or last carry-on, the ending one included, 0 for a complete master's
/// distance or 1 for stopped, and the signed travels since its start.
#[repr(C)]
#[derive(Clone, Copy, Debug, PartialEq, Eq)]
pub struct Entry {
    pub ticks: u64,
    pub cause: u8,
    pub travels: [i32; 5],
}

#[repr(C)]
struct PowerAnswer {
    controller: Opaque,
    number: u8,
}

/// What a received byte answers: the length of the reply at the front of the lent buffer, and its number.
#[repr(C)]
#[derive(Clone, Copy)]
pub struct ByteAnswer {
    controller: Opaque,
    pub length: usize,
    pub number: u8,
}

/// What a tick answers: the output words of its two halves, the five pulses, its number, whether it ends a move, the
/// length of the block of a W line at the front of the lent buffer, and the entry of the ended move; the length without
/// a block is 0, and an entry without an end is all zeros.
#[repr(C)]
#[derive(Clone, Copy)]
pub struct TickAnswer {
    controller: Opaque,
    pub first: u32,
    pub second: u32,
    pub pulses: [i8; 5],
    pub number: u8,
    pub ended: bool,
    pub length: u8,
    pub entry: Entry,
}

#[repr(C)]
struct TravelAnswer {
    axes: [u32; 5],
}

#[repr(C)]
struct PositionAnswer {
    axes: [i64; 5],
}

/// What a plain start and so many ticks would leave: positions, travels, the tick that ends the move, counted from 1,
/// or 0 where it is not reached, and 0; or a number, and zeros.
#[repr(C)]
#[derive(Clone, Copy, Debug, PartialEq, Eq)]
pub struct TrialAnswer {
    pub positions: [i64; 5],
    pub travels: [u32; 5],
    pub end: u32,
    pub number: u8,
}

/// What an append answers: the place after the entry and 0; or the given place and 22 or 24.
#[repr(C)]
#[derive(Clone, Copy, Debug, PartialEq, Eq)]
pub struct AppendAnswer {
    pub next: usize,
    pub number: u8,
}

/// What a read answers: an entry that was found and the place after it; or an entry of zeros, the given place, and 0
/// for the journal's end, 23 or 24.
#[repr(C)]
#[derive(Clone, Copy, Debug, PartialEq, Eq)]
pub struct ReadAnswer {
    pub entry: Entry,
    pub next: usize,
    pub found: bool,
    pub number: u8,
}

extern "C" {
    fn temixohuel_power_on(switch: u8) -> PowerAnswer;
    fn temixohuel_byte(c: Opaque, buf: *mut u8, length: usize, b: u8) -> ByteAnswer;
    fn temixohuel_tick(c: Opaque, buf: *mut u8, length: usize, word: u32) -> TickAnswer;
    fn temixohuel_travels(c: Opaque) -> TravelAnswer;
    fn temixohuel_positions(c: Opaque) -> PositionAnswer;
    fn temixohuel_status(c: Opaque) -> u8;
    fn temixohuel_speed(c: Opaque) -> u32;
    fn temixohuel_slope(c: Opaque) -> u32;
    fn temixohuel_trial(c: Opaque, master: u32, word: u32, ticks: u32) -> TrialAnswer;
    fn temixohuel_append(buf: *mut u8, length: usize, at: usize, entry: Entry) -> AppendAnswer;
    fn temixohuel_read(bytes: *const u8, length: usize, at: usize) -> ReadAnswer;
}

/// A controller that power-on and calls made.
pub struct Controller(Opaque);

// Each call meets the library's one premise, since its controller is one that an earlier call answered.
impl Controller {
    /// A fresh controller, and 1 for a switch that there is none of, else 0. Its watch is 1
    /// until a P B line sets another: a move is stopped once 1,000,000 ticks (4 s) pass without a line that is accepted
    /// or turned away by 10 to 17 or 26. P0B0 turns it off.
    pub fn power_on(switch: u8) -> (Controller, u8) {
        let answer = unsafe { temixohuel_power_on(switch) };
        (Controller(answer.controller), answer.number)
    }

    /// A received byte, with the buffer of 120 bytes or more lent for a reply.
    pub fn byte(&mut self, buf: &mut [u8], b: u8) -> ByteAnswer {
        let answer = unsafe { temixohuel_byte(self.0, buf.as_mut_ptr(), buf.len(), b) };
        self.0 = answer.controller;
        answer
    }

    /// A tick, with its input word and the buffer of 120 bytes or more lent for the block of a W line; a shorter one is
    /// 2, checked before 3, and either leaves all as it was. The block comes in the 2,500th tick (10 ms) after the
    /// line, those turned away not counted; another accepted W line before takes its place, and a silent one gives
    /// none.
    pub fn tick(&mut self, buf: &mut [u8], word: u32) -> TickAnswer {
        let answer = unsafe { temixohuel_tick(self.0, buf.as_mut_ptr(), buf.len(), word) };
        self.0 = answer.controller;
        answer
    }

    /// The pulses of each axis in the latest move.
    pub fn travels(&self) -> [u32; 5] {
        unsafe { temixohuel_travels(self.0) }.axes
    }

    /// The signed pulses of each axis since power-on or the last position reset.
    pub fn positions(&self) -> [i64; 5] {
        unsafe { temixohuel_positions(self.0) }.axes
    }

    /// The status bits 0 to 6.
    pub fn status(&self) -> u8 {
        unsafe { temixohuel_status(self.0) }
    }

    /// The speed setting in units of 0.25 Hz.
    pub fn speed(&self) -> u32 {
        unsafe { temixohuel_speed(self.0) }
    }

    /// The slope setting in units of 1.25 kHz/s.
    pub fn slope(&self) -> u32 {
        unsafe { temixohuel_slope(self.0) }
    }

    /// What a plain start with this master (0 to 4), a half-received line aside, and so many ticks (0 to 1,000,000),
    /// each with this input word, would leave. Nothing is done. The number is 0, 3, 25, 10, or 11 to 17 as a start line
    /// meets them.
    pub fn trial(&self, master: u32, word: u32, ticks: u32) -> TrialAnswer {
        unsafe { temixohuel_trial(self.0, master, word, ticks) }
    }
}

/// An entry written at a place of a journal; the bytes before and after it keep their values.
pub fn append(buf: &mut [u8], at: usize, entry: Entry) -> AppendAnswer {
    unsafe { temixohuel_append(buf.as_mut_ptr(), buf.len(), at, entry) }
}

/// The entry at a place of a journal.
pub fn read(bytes: &[u8], at: usize) -> ReadAnswer {
    unsafe { temixohuel_read(bytes.as_ptr(), bytes.len(), at) }
}
