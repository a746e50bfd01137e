//! What the reference converts a command to, and the distances that the text of a move names.

use reference::host::line_text;
use reference::station::{convert, NULL};

/// The lines that the reference's converter gives for a command without its 00.
pub fn lines(command: &str) -> Vec<String> {
    let converted = convert(&[command.as_bytes(), &[NULL]].concat());
    converted.used().iter().map(|value| line_text(value).expect("each value has a line")).collect()
}

/// The distances of axes 0 to 4 that the text of a move names, read without the converter.
pub fn named(command: &str) -> [i32; 5] {
    let words: Vec<&str> = command.split([' ', ',']).filter(|word| !word.is_empty()).collect();
    let mut named = [0; 5];
    for pair in words[1..].chunks_exact(2) {
        let axis = (pair[0] == "Y") as usize;
        named[axis] = pair[1].parse().expect("a distance stands there");
    }
    named
}

#[cfg(test)]
mod tests {
    use super::*;

    #[test]
    fn a_text_names_its_distances() {
        assert_eq!(named("INC X -007"), [-7, 0, 0, 0, 0]);
        assert_eq!(named("INC Y 5"), [0, 5, 0, 0, 0]);
        assert_eq!(named("LNI X -20000, Y 524287"), [-20_000, 524_287, 0, 0, 0]);
        assert_eq!(named("LNI X 3,Y -0"), [3, 0, 0, 0, 0]);
    }

    #[test]
    fn a_move_has_six_lines() {
        assert_eq!(lines("LNI X 3,Y -4").join(" "), "P0000003 P0180004 P0200000 P0300000 P0400000 Q0810000");
        assert_eq!(lines("SPD Y 250000"), ["P08F4240"]);
        assert_eq!(lines("INC X 524288"), [""; 0]);
    }
}
