//! From words: what begins as a reply block and is none, and what does not begin so.

use super::lines::Lines;

/// From words: lines that begin as a block (rule 3), each with one thing wrong. `SEE` is a station's command to rule 2.
const NO_BLOCKS: [&str; 46] = [
    "U0",
    "U00",
    "U000000",
    "U00000000A",
    "U0000000g",
    "U0000000G",
    "U0000000 ",
    "U0000000 as A",
    "U000000e",
    "U0000 0E",
    "U00000FF",
    "U0000100",
    "U0100000",
    "UC000000",
    "S0",
    "S000000",
    "S0500000",
    "S0c00000",
    "S0F00000",
    "S0850000",
    "S08D0000",
    "S0D00400",
    "S0D80000",
    "S0E00800",
    "S0E08000",
    "S0b00000",
    "S060000b",
    "SC600000",
    "s0",
    "s0500000",
    "s0800000",
    "s0F00000",
    "s00fffff",
    "sC000000",
    "s0000000g",
    "R0",
    "R000000",
    "R0abcdef",
    "RC000000",
    "R0 00012",
    "SEE",
    "U0000000`",
    "U0000007a",
    "s00ABCDea",
    "R0aBCDEFa",
    "S060000bA",
];

/// From words: lines that rule 3 leaves to the rules behind it.
const OTHERS: [&str; 15] = [
    "U",
    "U 0000000",
    "R",
    "Ua000000",
    "Sa600000",
    "sa000000",
    "Ra000000",
    "UG000000",
    "u0000000",
    "r0000012",
    " U0000000",
    "Q0800000",
    "q0100000",
    "P0B0",
    "W0",
];

/// From words: near misses.
pub(super) fn near_blocks(lines: &mut Lines) {
    lines.each(&NO_BLOCKS);
    lines.each(&OTHERS);
    for end in [0, 13, 255] {
        lines.bytes(&[b"U0000000", &[end][..]].concat());
        lines.bytes(&[b"S", &[end][..], b"600000"].concat());
    }
    lines.line(&format!("U{}", "0".repeat(98)));
    lines.line(&format!("U{}", "0".repeat(99)));
}
