//! From words, first table: every command with its least, greatest and first refused value, and malformed numbers.

use super::lines::Lines;

/// From words: axes and masters, those over 255 and those that a number of 8 or 32 bits takes for smaller ones.
const AXES: [&str; 10] = ["00", "01", "02", "3", "4", "5", "255", "256", "260", "4294967296"];

/// From words: the commands with an axis or a master.
const OF_AN_AXIS: [&str; 3] = ["start", "travel", "position"];

/// From words: the other numbers of the table, each word with its ends and what lies beyond, and either spelling.
const RANGES: [(&str, &[&str]); 7] = [
    ("dwell", &["0", "1", "16383", "016384", "65536", "4294967295", "4294967296", "00016383", "000000000000"]),
    ("watch", &["0", "1", "2", "4", "10", "255", "256", "257", "259", "65536", "4294967296", "0003"]),
    ("polarity", &["0", "1", "FFF", "fff", "1000", "FfF", "0000000FFF", "FFFFFFFF", "100000000", "100000001"]),
    ("low", &["0", "3FF", "400", "800", "1000", "2000", "33FF", "33ff", "3400", "4000", "8000", "10000", "FFFFF"]),
    ("high", &["0", "3FF", "400", "800", "2000", "33fF", "4000", "8000", "10000", "FFFFFF"]),
    ("low", &["100000", "FFFFFFFF", "100000000", "100000010", "000000000033FF"]),
    ("outputs", &["0", "1", "abcdef", "FFFFFF", "1000000", "FFFFFFFF", "100000000", "100000001", "00FFFFFF"]),
];

/// From words: distances, the minus sign with 0 too.
const DISTANCES: [&str; 15] = [
    "0 0",
    "0 -0",
    "0 1",
    "1 -1",
    "3 524287",
    "4 -524287",
    "4 524288",
    "4 -524288",
    "0 4294967295",
    "0 4294967296",
    "0 -4294967297",
    "5 1",
    "255 1",
    "256 1",
    "04 -0000000524287",
];

/// From words: numbers that are none.
const NO_NUMBERS: [&str; 9] = ["", "-1", "+1", "x", "1x", "0x1", "1.0", "1,000", "G"];

/// From words: every command with a number.
pub(super) fn ranges(lines: &mut Lines) {
    for word in OF_AN_AXIS {
        lines.behind(word, &AXES);
    }
    for axis in ["1", "004", "5", "256", "4294967296"] {
        lines.line(&format!("start {axis} after dwell"));
    }
    for (word, figures) in RANGES {
        lines.behind(word, figures);
    }
    lines.behind("distance", &DISTANCES);
}

/// From words: numbers that are none, words too few and words too many.
pub(super) fn malformed(lines: &mut Lines) {
    for word in ["start", "dwell", "outputs"] {
        lines.behind(word, &NO_NUMBERS);
    }
    lines.behind("watch", &["A", "-0", ""]);
    lines.behind("low", &["-1", "0G", "", "0x10"]);
    lines.behind("high", &["-1", "0g", "", "10h"]);
    lines.behind("position", &["-1", "A", ""]);
    lines.behind("distance", &["", "1", "1 ", "1 -", "1 --1", "1 +1", "1 - 1", "-1 1", "1 1.0", "x 1", "1 A", "1 1 1"]);
    lines.each(&["start", "travel", "position", "dwell", "watch", "polarity", "low", "high", "outputs", "distance"]);
    lines.each(&[
        "start 0 after",
        "start 0 dwell",
        "start after dwell",
        "start 0 After dwell",
        "start 0 after dwell 0",
    ]);
    lines.each(&["start 0 0", "start x after dwell", "travel 1 2", "dwell 1 2", "low 1 1", "outputs AB CD"]);
    lines.each(&["stop 0", "status 0", "everything 0", "inputs 0", "clear 2", "reset 0"]);
}
