//! Stored vectors of the converter: the ends of every range on both sides, and numbers of any length.

use crate::text::Text;

/// 8/14: the ends of the speeds, those of the document's own range, and spellings with leading zeros.
const SPEEDS: [&str; 11] = ["0", "1", "2", "249999", "250000", "250001", "500000", "500001", "000", "0001", "00250001"];

/// 8/14: the ends of the distances.
const DISTANCES: [&str; 3] = ["0", "524287", "524288"];

/// 8/14: what is next to those ends, and spellings with leading zeros.
const NEAR_ENDS: [&str; 8] =
    ["X 1", "Y -1", "X -524286", "Y 524289", "X -000", "Y 0007", "X 00524288", "Y -0000524287"];

/// 8/14: distances of LNI; each axis at its ends with the other in range, and both beyond.
const PAIRS: [(&str, &str); 8] = [
    ("524287", "-524287"),
    ("524288", "0"),
    ("0", "524288"),
    ("-524288", "524287"),
    ("524287", "-524288"),
    ("524288", "524288"),
    ("-0", "-0"),
    ("-000", "00524287"),
];

/// 8/14: numbers that fewer bits take for small ones: 2 to the 30 plus 5, 2 to the 32 less 1, 2 to the 32, and 5 more,
/// 10 to the 9, 2 to the 62 plus 5, 2 to the 64, and 3 more, 10 to the 30, 2 to the 128 plus 7.
const LONG: [&str; 10] = [
    "1073741829",
    "4294967295",
    "4294967296",
    "4294967301",
    "1000000000",
    "4611686018427387909",
    "18446744073709551616",
    "18446744073709551619",
    "1000000000000000000000000000000",
    "340282366920938463463374607431768211463",
];

/// 8/14: 29 for a speed of 0 or over 250,000 pps.
pub(super) fn speeds(text: &mut Text) {
    text.heading("speeds about the ends of their range");
    for speed in SPEEDS {
        text.ended_command(&format!("SPD X {speed}"));
    }
    text.ended_commands(&["SPD Y 0", "SPD Y 1", "SPD Y 250000", "SPD Y 250001"]);
}

/// 8/14: 29 for a distance over 524,287 either way; a 0 as plus.
pub(super) fn distances(text: &mut Text) {
    text.heading("distances about the ends of their range, of both axes and signs");
    for distance in DISTANCES {
        for before in ["X ", "X -", "Y ", "Y -"] {
            text.ended_command(&format!("INC {before}{distance}"));
        }
    }
    for distance in NEAR_ENDS {
        text.ended_command(&format!("INC {distance}"));
    }
    for (x, y) in PAIRS {
        text.ended_command(&format!("LNI X {x}, Y {y}"));
    }
}

/// 8/14: numbers of any length, and none wraps.
pub(super) fn long_numbers(text: &mut Text) {
    text.heading("numbers of any length: none wraps");
    for (place, number) in LONG.into_iter().enumerate() {
        text.ended_command(&format!("SPD X {number}"));
        let (axis, sign) = if place % 2 == 0 { ("X", "") } else { ("Y", "-") };
        text.ended_command(&format!("INC {axis} {sign}{number}"));
    }
    text.ended_commands(&["LNI X 4294967301,Y 5", "LNI X 5, Y -18446744073709551619"]);
}

/// 8/14: forty digits; zeros before a number in range leave it so.
pub(super) fn most_bytes(text: &mut Text) {
    text.heading("numbers of forty digits, those with leading zeros in range; commands of 48 bytes");
    for digits in ["9".repeat(40), format!("{:040}", 250_000), format!("{:040}", 250_001)] {
        text.ended_command(&format!("SPD Y {digits}"));
        text.ended_command(&format!("INC X -{digits}"));
    }
    text.ended_command(&format!("LNI X -{:018},Y -{:018}", 524_287, 524_287));
    text.ended_command(&format!("LNI X {:018}, Y -{:018}", 524_287, 524_288));
}
