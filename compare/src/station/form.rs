//! The four commands in every form that is taken.

use super::number::number;
use super::MOST_PPS;
use crate::random::Random;
use reference::command::LONGEST;

/// Either axis.
pub fn axis(random: &mut Random) -> &'static str {
    random.pick(&["X", "Y"])
}

/// What stands between the two parts of a command, with a space and without.
pub fn comma(random: &mut Random) -> &'static str {
    random.pick(&[",", ", "])
}

/// A distance of either sign.
fn distance(random: &mut Random) -> String {
    let sign = random.pick(&["", "-"]);
    format!("{sign}{}", number(random, LONGEST))
}

/// A stop in one of its four forms.
pub fn stop(random: &mut Random) -> String {
    format!("SST {}", random.pick(&["X", "Y", "X,Y", "X, Y"]))
}

/// A move of both axes.
fn both(random: &mut Random) -> String {
    format!("LNI X {}{}Y {}", distance(random), comma(random), distance(random))
}

/// One that names both axes.
pub fn of_both(random: &mut Random) -> String {
    if random.chance(70) {
        both(random)
    } else {
        format!("SST X{}Y", comma(random))
    }
}

/// One of the four without its 00; a number may be out of range, or none.
pub fn command(random: &mut Random) -> String {
    match random.below(10) {
        0..=2 => format!("SPD {} {}", axis(random), number(random, MOST_PPS)),
        3..=5 => format!("INC {} {}", axis(random), distance(random)),
        6..=8 => both(random),
        _ => stop(random),
    }
}
