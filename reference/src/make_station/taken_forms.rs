//! Stored vectors of the converter: the four commands in every form that is taken.

use crate::text::Text;

/// Source document 001: its examples of the four, and each axis of each.
const EXAMPLES: [&str; 12] = [
    "SPD X 35000",
    "SPD Y 100000",
    "INC X 5000",
    "INC X -5000",
    "INC Y 5000",
    "INC Y -5000",
    "SST X",
    "SST Y",
    "SST X,Y",
    "SST X, Y",
    "LNI X -20000, Y 20000",
    "LNI X -20000,Y 20000",
];

/// 8/14: the longer axis is master, X where both are as long.
const LENGTHS: [(u32, u32); 5] = [(7, 8), (8, 7), (8, 8), (0, 1), (1, 0)];

/// 8/14: every form that is taken; of LNI each pair of signs.
pub(super) fn taken_forms(text: &mut Text) {
    text.heading("the four commands in every form that is taken");
    text.ended_commands(&EXAMPLES);
    for (x, y) in LENGTHS {
        text.ended_command(&format!("LNI X {x},Y {y}"));
        text.ended_command(&format!("LNI X -{x}, Y {y}"));
    }
    text.ended_commands(&["LNI X 7, Y -8", "LNI X -8,Y -7", "LNI X -8, Y -8"]);
}
