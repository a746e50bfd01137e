//! The 39 names with anything behind them, and what is near a name.

use super::form::command;
use super::LETTERS;
use crate::random::Random;
use reference::station::{CONVERTED, NAMES};

/// What else may stand behind a name.
const BEHIND: [&str; 9] = ["", "", "", "", " ", " STA X P01", " X -, Y +", " X 0, Y 0, 90", " Z+,1"];

/// What stands behind a name: mostly what is behind one of the four.
fn behind(random: &mut Random) -> String {
    if random.chance(50) {
        return random.pick(&BEHIND).to_string();
    }
    command(random)[LETTERS..].to_string()
}

/// Any of the 39 names.
pub fn any_name(random: &mut Random) -> String {
    let name = String::from_utf8_lossy(random.pick(&NAMES));
    format!("{name}{}", behind(random))
}

fn capital(random: &mut Random) -> u8 {
    random.between(b'A' as u32, b'Z' as u32) as u8
}

/// A name is altered: one letter off, in small letters, one letter dropped or doubled; or any three capitals.
fn altered(random: &mut Random, mut name: Vec<u8>) -> Vec<u8> {
    let at = random.below(LETTERS as u32) as usize;
    match random.below(8) {
        0..=1 => name[at] = random.pick(&[name[at] - 1, name[at] + 1]),
        2 => name[at] = capital(random),
        3 => name[at].make_ascii_lowercase(),
        4 => name.make_ascii_lowercase(),
        5 => {
            name.remove(at);
        }
        6 => name.insert(at, name[at]),
        _ => name = [0; LETTERS].map(|_| capital(random)).to_vec(),
    }
    name
}

/// What is near a name, often near one of the four.
pub fn near_name(random: &mut Random) -> String {
    let (any, converted) = (random.pick(&NAMES), random.pick(&CONVERTED));
    let name = random.pick(&[any, converted]).to_vec();
    let name: String = altered(random, name).into_iter().map(char::from).collect();
    format!("{name}{}", behind(random))
}
