//! From words, rule 4: five sums, and lines that are none.

use super::lines::Lines;

/// From words: sums, and what is near them.
const SUMS: [&str; 23] = [
    "0 0 0 0 0",
    "193895 36982 -36982 0 0",
    "1000000 -1000000 1000000 -1000000 1000000",
    "-0 00 -00 007 -007",
    "99999999999999999999 -99999999999999999999 0 0 0",
    "0 0 0 0",
    "0 0 0 0 0 0",
    "0 0 0 0 ",
    " 0 0 0 0 0",
    "0 0 0 0 0 ",
    "0 0  0 0 0",
    "0  0 0 0",
    "0 0 0 0 -",
    "0 0 -- 0 0",
    "--1 0 0 0 0",
    "+1 0 0 0 0",
    "1.0 0 0 0 0",
    "A 0 0 0 0",
    "0 0 0 0 0A",
    "0\t0\t0\t0\t0",
    "0 0 0 0 0\r",
    "pulses 1 -1 0 0 0",
    "0",
];

/// From words: sums; of 99 characters and of 100.
pub(super) fn sums(lines: &mut Lines) {
    lines.each(&SUMS);
    lines.line(&format!("{} 0 0 0 0", "1".repeat(91)));
    lines.line(&format!("{} 0 0 0 0", "1".repeat(92)));
}
