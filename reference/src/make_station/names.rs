//! Stored vectors of the converter: the 39 names, and what is near them.

use crate::station::NAMES;
use crate::text::Text;

/// Source document 001: what stands behind each of the four names in one of its forms.
const BEHIND_NAMES: [(&str, &str); 4] = [("SPD", " X 5"), ("INC", " X 5"), ("LNI", " X 5,Y 5"), ("SST", " X")];

/// 8/14: a space and what fits no form.
const RUBBISH: &[u8] = b" Z+\xFF,1\x00";

/// Source document 001: other commands in forms of its own.
const LACKED: [&str; 6] =
    ["ABS X 1000", "HOM X", "IST X,Y", "ICB X -200000000, Y 1000000000", "CNT X -, Y +", "PRG STA X P01"];

/// 8/14: names that are none, and the event notification of chapter 4, which the table of chapter 3 has not.
const NO_NAMES: [&str; 9] = ["EEV", "EEV X 5", "ABSX 1", "abs X 1", "AB X 1", "RSTT", "rst", "XY", "SPD,X 5"];

/// 8/14: each of the 39 names alone with its 00, without, and with rubbish.
pub(super) fn each_name(text: &mut Text) {
    text.heading("each of the 39 names alone with 00, without, with a space and rubbish");
    for name in NAMES {
        text.command(&[name, &[0]].concat());
        text.command(name);
        text.command(&[name, RUBBISH].concat());
    }
}

/// 8/14: commands that this bench lacks, their form not judged.
pub(super) fn lacked(text: &mut Text) {
    text.heading("commands that this bench lacks: in the document's forms, without a 00, with two, one inside");
    text.ended_commands(&LACKED);
    for bytes in [&b"ABS X 1"[..], b"ABS\0\0", b"RST\0INC X 5\0", b"HOM \0 X"] {
        text.command(bytes);
    }
}

/// 8/14: one letter of a name is the next but for the first, which is the one before; SST becomes RST so, a name.
fn one_letter_off(name: &str, place: usize) -> String {
    let mut letters = name.as_bytes().to_vec();
    letters[place] = if place == 0 { letters[place] - 1 } else { letters[place] + 1 };
    letters.into_iter().map(char::from).collect()
}

/// 8/14: names one letter off, in small letters, with a letter more and a letter less.
pub(super) fn near_names(text: &mut Text) {
    text.heading("the four names one letter off, in small letters, with a letter more or less");
    for (name, behind) in BEHIND_NAMES {
        for place in 0..name.len() {
            text.ended_command(&format!("{}{behind}", one_letter_off(name, place)));
        }
        let small = name.to_lowercase();
        text.ended_command(&format!("{small}{behind}"));
        text.ended_command(&format!("{}{}{behind}", &name[..2], &small[2..]));
        text.ended_command(&format!("{name}{}", behind.trim_start()));
        text.ended_command(&format!("{}{behind}", &name[..2]));
    }
    text.ended_commands(&NO_NAMES);
}
