//! The four commands in forms next to those that are taken: something else stands in the place of one character, or the
//! axes are exchanged.

use super::form::{command, of_both};
use super::LETTERS;
use crate::random::Random;

/// What stands in the place of an axis, a comma, a space and a digit, and what more stands at the end.
const FOR_AXIS: [&str; 10] = ["X", "Y", "Z", "x", "y", "", "X,Y", "X, Y", "Y,X", "XY"];
const FOR_COMMA: [&str; 7] = ["", ";", ",,", " ,", " , ", ",  ", ", ,"];
const FOR_SPACE: [&str; 4] = ["", "  ", "\t", ","];
const FOR_DIGIT: [&str; 10] = ["+1", "-1", "--1", "-+1", "- 1", " 1", "1,0", "1.0", "1A", ""];
const MORE: [&str; 8] = [" ", ",", "-", "\r", " 5", " Y 5", ",Y 5", ", Y 5"];

/// Something in the place of one of the characters behind the name that are of a kind; where none is, at the end.
fn with_slip(random: &mut Random, text: String, kind: fn(char) -> bool, instead: &[&str]) -> String {
    let places: Vec<usize> = text.match_indices(kind).map(|(at, _)| at).filter(|&at| at >= LETTERS).collect();
    if places.is_empty() {
        return format!("{text}{}", random.pick(&MORE));
    }
    let at = random.pick(&places);
    format!("{}{}{}", &text[..at], random.pick(instead), &text[at + 1..])
}

/// X for each Y and Y for each X.
fn exchanged(text: String) -> String {
    let other = |character| match character {
        'X' => 'Y',
        'Y' => 'X',
        _ => character,
    };
    text.chars().map(other).collect()
}

/// One of the four, in a form that is seldom taken.
pub fn near_form(random: &mut Random) -> String {
    let (text, of_both) = (command(random), of_both(random));
    match random.below(10) {
        0..=2 => with_slip(random, text, |character| "XY".contains(character), &FOR_AXIS),
        3 => exchanged(of_both),
        4..=5 => with_slip(random, of_both, |character| character == ',', &FOR_COMMA),
        6..=7 => with_slip(random, text, |character| character == ' ', &FOR_SPACE),
        8 => with_slip(random, text, |character| character.is_ascii_digit(), &FOR_DIGIT),
        _ => with_slip(random, text, |_| false, &[]),
    }
}

#[cfg(test)]
mod tests {
    use super::super::counted::form_of;
    use super::*;
    use std::collections::BTreeSet;

    #[test]
    fn forms_next_to_those_taken_come() {
        let mut random = Random::of_item(1, 0, 0);
        let forms: BTreeSet<String> = (0..20_000).map(|_| form_of(near_form(&mut random).as_bytes())).collect();
        let stops = ["SST Y,X", "SST X,,Y", "SST X, ", "SST Z", "SSTX", "SST X;Y", "SST  X", "SST X, Y "];
        let speeds = ["SPD Z n", "SPD X,Y n", "SPD X -n", "SPD X n ", "SPD X n,Y n"];
        let moves = ["INC X +n", "INC Y - n", "INC X,n", "LNI Y n,X n", "LNI X n ,Y n", "LNI X nY n", "LNI X n;Y n"];
        for form in stops.iter().chain(&speeds).chain(&moves) {
            assert!(forms.contains(*form), "{form}");
        }
    }
}
