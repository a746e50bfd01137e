//! The commands of the line protocol (Lines, chapter 7), and the ranges of their figures.

use std::ops::RangeInclusive;

/// Lines: every command that the controller accepts, with its figures.
#[derive(Clone, Copy, Debug, PartialEq, Eq)]
pub enum Command {
    /// P 0-4: distance 0 to 524,287 and direction of one axis.
    Distance { axis: u8, minus: bool, pulses: u32 },
    /// P 8: speed 1 to 1,000,000 in units of 0.25 Hz.
    Speed(u32),
    /// P 9: slope 1 to 4,095 in units of 1.25 kHz/s.
    Slope(u32),
    /// P A: dwell 0 to 16,383 ms.
    Dwell(u32),
    /// P B: watch 0 to 3.
    Watch(u32),
    /// P C: polarity 0 to 4,095.
    Polarity(u32),
    /// Q 0-4: travel of one axis.
    ReadTravel { axis: u8 },
    /// Q 6: status.
    ReadStatus,
    /// Q 8, second digit 0-4: plain start.
    Start { master: u8 },
    /// Q 8, second digit 8-C: start after the dwell.
    StartAfterDwell { master: u8 },
    /// Q 9: stop.
    Stop,
    /// Q A: clear status bit 2.
    ClearWrongMaster,
    /// Q B: position reset.
    ResetPositions,
    /// Q C: carry on the latest move (paper 02, 6/14).
    CarryOn,
    /// Q D: low-ON setting.
    LowOn(u32),
    /// Q E: high-ON setting.
    HighOn(u32),
    /// q 0-4: position of one axis.
    ReadPosition { axis: u8 },
    /// q 8: everything.
    ReadEverything,
    /// W without digits: query of the inputs.
    ReadInputs,
    /// W with six digits: general outputs.
    Outputs(u32),
}

/// Host end: a command value, which is a command with its reply wish and its identification. That is the very character
/// (paper 02, 7/14), so that `a` and `A` are two; one that is no digit may be given, and has no line.
#[derive(Clone, Copy, Debug, PartialEq, Eq)]
pub struct CommandValue {
    pub command: Command,
    pub silent: bool,
    pub identification: Option<u8>,
}

/// Lines: low-ON and high-ON may have only bits 0-9, 12 and 13.
pub const ON_SETTING_BITS: u32 = 0x0033FF;

/// Shares: the longest distance.
pub const LONGEST: u32 = 524_287;

/// Ramp: the highest speed setting.
pub const FASTEST: u32 = 1_000_000;

/// Ramp: the highest slope setting.
pub const STEEPEST: u32 = 4_095;

/// Lines: the longest dwell in ms.
pub const LONGEST_DWELL: u32 = 16_383;

/// Lines: the highest polarity setting.
pub const HIGHEST_POLARITY: u32 = 4_095;

/// Shares: the distances.
pub const DISTANCES: RangeInclusive<u32> = 0..=LONGEST;

/// Ramp: the speed settings.
pub const SPEEDS: RangeInclusive<u32> = 1..=FASTEST;

/// Ramp: the slope settings.
pub const SLOPES: RangeInclusive<u32> = 1..=STEEPEST;

/// Lines: the dwells in ms.
pub const DWELLS: RangeInclusive<u32> = 0..=LONGEST_DWELL;

/// Lines: the watch settings.
pub const WATCHES: RangeInclusive<u32> = 0..=3;

/// Lines: the polarity settings.
pub const POLARITIES: RangeInclusive<u32> = 0..=HIGHEST_POLARITY;

/// Lines of output: the words of 24 bits.
pub const OUTPUT_WORDS: RangeInclusive<u32> = 0..=0xFFFFFF;

/// Turned away, 10 of a line and 19 of a command value: a figure out of its range.
pub fn in_range(figure: u32, range: RangeInclusive<u32>, number: u8) -> Result<u32, u8> {
    if range.contains(&figure) {
        Ok(figure)
    } else {
        Err(number)
    }
}

/// Turned away, 10 of a line, 19 of a command value, 20 of an echo: low-ON and high-ON have no other bits.
pub fn on_setting(bits: u32, number: u8) -> Result<u32, u8> {
    if bits & !ON_SETTING_BITS == 0 {
        Ok(bits)
    } else {
        Err(number)
    }
}

/// Lines: the start that Q 8 names by its second digit, master 0-4, or 8-C for master 0-4 after the dwell.
pub fn start_named(second: u8) -> Option<Command> {
    match second {
        0..=4 => Some(Command::Start { master: second }),
        8..=0xC => Some(Command::StartAfterDwell { master: second - 8 }),
        _ => None,
    }
}
