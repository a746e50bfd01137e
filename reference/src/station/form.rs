//! Source document 001, 3.2.3, 3.2.10, 3.3.1 and 3.4.1: the formats of INC, SST, LNI and SPD.

use super::number::number;
use crate::fields::split;

/// Source document 001, chapter 2: [NULL], which ends a command.
pub const NULL: u8 = 0x00;

/// Source document 001, chapter 2: sp, the triangle mark.
pub(super) const SPACE: u8 = b' ';

/// Source document 001: a relative position by pulses, a minus sign before it or none.
#[derive(Clone, Copy, Default)]
pub(super) struct Distance {
    pub(super) minus: bool,
    pub(super) pulses: u32,
}

/// 8/14: what one of the four commands asks for.
pub(super) enum Asked {
    /// SPD, of either axis: both share one speed.
    Speed { pps: u32 },
    /// INC and LNI; INC leaves the other of the two axes at 0.
    Move { x: Distance, y: Distance },
    /// SST, of either axis or of both.
    Stop,
}

/// Source document 001, axis assignment: X and Y.
fn is_axis(word: &[u8]) -> bool {
    word == b"X" || word == b"Y"
}

/// Lines of the other bench make: a distance may have a minus sign; there is no plus sign.
fn distance(word: &[u8]) -> Option<Distance> {
    match word {
        [b'-', digits @ ..] => Some(Distance { minus: true, pulses: number(digits)? }),
        _ => Some(Distance { minus: false, pulses: number(word)? }),
    }
}

/// 8/14: INC moves one axis.
fn of_one_axis(axis: &[u8], word: &[u8]) -> Option<Asked> {
    let distance = distance(word)?;
    match axis {
        b"X" => Some(Asked::Move { x: distance, y: Distance::default() }),
        b"Y" => Some(Asked::Move { x: Distance::default(), y: distance }),
        _ => None,
    }
}

/// 8/14: LNI moves two.
fn of_both_axes(x: &[u8], y: &[u8]) -> Option<Asked> {
    Some(Asked::Move { x: distance(x)?, y: distance(y)? })
}

/// Source document 001: the words of a format, one space between two of them. The document's examples have a space
/// behind the comma (`LNI X -20000, Y 20000`) and none (`SST X,Y`); either is taken in both.
fn asked(words: &[&[u8]]) -> Option<Asked> {
    match words {
        [b"SPD", axis, speed] if is_axis(axis) => Some(Asked::Speed { pps: number(speed)? }),
        [b"INC", axis, distance] => of_one_axis(axis, distance),
        [b"LNI", b"X", [x @ .., b',', b'Y'], y] => of_both_axes(x, y),
        [b"LNI", b"X", [x @ .., b','], b"Y", y] => of_both_axes(x, y),
        [b"SST", axis] if is_axis(axis) => Some(Asked::Stop),
        [b"SST", b"X,Y"] | [b"SST", b"X,", b"Y"] => Some(Asked::Stop),
        _ => None,
    }
}

/// Lines of the other bench make: what stands before the 00, which must be the last byte and the only one.
fn before_null(command: &[u8]) -> Option<&[u8]> {
    match command {
        [before @ .., NULL] if !before.contains(&NULL) => Some(before),
        _ => None,
    }
}

/// 8/14: one of the four in the formats of the document; `None` for another form.
pub(super) fn read(command: &[u8]) -> Option<Asked> {
    asked(&split(before_null(command)?))
}
