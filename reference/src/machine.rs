//! The controller: its state, power-on and the readings of its settings and counters.

mod carry_on;
mod receive;
mod replies;
mod settle;
mod start;
mod status;
mod stop;
mod tick;
mod travel;

use crate::inputs::Inputs;
use crate::journal::Entry;
use settle::Settling;

/// Turned away, 2: the least length of a reply buffer, of a byte and (paper 02, 3/14) of a tick.
pub const LEAST_REPLY_BUFFER: usize = 120;

/// Turned away, 3: the first value that is no input word.
pub const INPUT_WORD_END: u32 = 16_777_216;

/// Stops: the full watch count, 4 s.
pub const WATCH_FULL: u32 = 1_000_000;

/// Ramp: dwell ticks for each ms set.
pub const TICKS_PER_MS: u32 = 250;

/// What a received byte answers: the length of the reply and the number of a refusal, or 0.
#[derive(Clone, Copy, Debug, PartialEq, Eq)]
pub struct ByteAnswer {
    pub len: usize,
    pub number: u8,
}

/// What a tick answers: five pulses, two words, the number of a waiting start that failed, or 0 (2 or 3 of a tick that
/// is turned away), the entry of the move that ends in it, if one does, and the length of the block of a W line at the
/// front of its lent buffer, 0 without one.
#[derive(Clone, Copy, Debug, PartialEq, Eq)]
pub struct TickAnswer {
    pub pulses: [i8; 5],
    pub words: [u32; 2],
    pub number: u8,
    pub entry: Option<Entry>,
    pub len: usize,
}

/// Lines: the reply is the front part of the lent buffer; for a length past the buffer's end it is empty.
pub fn front(buf: &[u8], len: usize) -> &[u8] {
    if len > buf.len() {
        return &[];
    }
    &buf[..len]
}

/// Shares: distance and direction of each axis.
#[derive(Clone, Copy, Debug, Default, PartialEq, Eq)]
struct Distances {
    pulses: [u32; 5],
    minus: [bool; 5],
}

/// The controller.
#[derive(Clone, Debug, PartialEq, Eq)]
pub struct Machine {
    switch: u8,
    /// The characters of a half-received line; of a line over nine characters the first ten.
    line: Vec<u8>,
    /// The last tick's input word, 0 before any, with low-ON and high-ON.
    inputs: Inputs,
    /// The next move: each axis's last accepted distance line.
    next: Distances,
    speed: u32,
    slope: u32,
    dwell_ms: u32,
    watch: u32,
    polarity: u32,
    general_outputs: u32,
    /// The block of a W line that is still to come.
    settling: Option<Settling>,
    /// The latest move, running or ended.
    latest: Distances,
    master: usize,
    travels: [u32; 5],
    moving: bool,
    stopping: bool,
    /// Speed u in fiftieths of a unit.
    ramp_speed: u64,
    phase: u64,
    /// Ticks of the latest move in which its ramp ran, since its start or its last carry-on.
    move_ticks: u64,
    /// A stop ended the latest move short of M; since then no distance line was accepted and no start took effect.
    left_open: bool,
    positions: [i32; 5],
    /// Ticks left of the dwell.
    dwell: u32,
    /// The master of a stored start.
    waiting: Option<u8>,
    watch_count: u32,
    wrong_master: bool,
    stopped: bool,
    emergency_held: bool,
    stopped_by_sensor: bool,
}

impl Machine {
    /// Ramp: power-on has V 10,000, a 16, all else 0; paper 02, 2/14: the watch is 1 (axes) instead of off.
    fn fresh(switch: u8) -> Machine {
        Machine {
            switch,
            line: Vec::new(),
            inputs: Inputs::default(),
            next: Distances::default(),
            speed: 10_000,
            slope: 16,
            dwell_ms: 0,
            watch: 1,
            polarity: 0,
            general_outputs: 0,
            settling: None,
            latest: Distances::default(),
            master: 0,
            travels: [0; 5],
            moving: false,
            stopping: false,
            ramp_speed: 0,
            phase: 0,
            move_ticks: 0,
            left_open: false,
            positions: [0; 5],
            dwell: 0,
            waiting: None,
            watch_count: 0,
            wrong_master: false,
            stopped: false,
            emergency_held: false,
            stopped_by_sensor: false,
        }
    }

    /// Turned away, 1: a switch over 15 or equal to 12 gives a controller of switch 0 with this number.
    pub fn power_on(switch: u8) -> (Machine, u8) {
        if switch > 15 || switch == 12 {
            return (Machine::fresh(0), 1);
        }
        (Machine::fresh(switch), 0)
    }

    /// Paper 02, 5/14: a copy of the controller, a half-received line aside.
    pub(crate) fn between_lines(&self) -> Machine {
        Machine { line: Vec::new(), ..self.clone() }
    }

    /// Shares: the travels of the latest move, without sign.
    pub fn travels(&self) -> [u32; 5] {
        self.travels
    }

    /// Shares: the positions, signed.
    pub fn positions(&self) -> [i32; 5] {
        self.positions
    }

    /// Host end: the speed setting V.
    pub fn speed(&self) -> u32 {
        self.speed
    }

    /// Host end: the slope setting a.
    pub fn slope(&self) -> u32 {
        self.slope
    }

    /// Lines: the switch digit of the replies.
    pub fn switch(&self) -> u8 {
        self.switch
    }
}
