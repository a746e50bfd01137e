//! From words: every form of a reply block, with and without an identification.

use super::lines::Lines;
use crate::text::IDENTIFICATIONS;

/// From words: travels and positions of all axes, with the ends of their ranges.
const COUNTERS: [&str; 15] = [
    "S0000000",
    "S0080000",
    "S01FFFFF",
    "S027FFFF",
    "S0480001",
    "S0412345A",
    "s0000000",
    "s007FFFF",
    "s0180000",
    "s0280001",
    "s03FFFFF",
    "s0400001",
    "s04ABCDE",
    "s01FFFFF0",
    "sF27FFFFF",
];

/// From words: echoes, with free digits and without.
const ECHOES: [&str; 21] = [
    "S0810000",
    "S0840000",
    "S0890000",
    "S08C0000",
    "S08CFFFF",
    "S080FFFF3",
    "S0888000C",
    "S09FFFFF",
    "S09000000",
    "S0AFFFFF9",
    "S0B00000",
    "S0BFFFFFE",
    "S0D00000",
    "S0D033FF",
    "S0D033FFD",
    "S0E00000",
    "S0E033FF",
    "S0E020014",
    "SF880000",
    "SB900000B",
    "S1D01000",
];

/// Paper 02, 7/14: each identification is told as it stands; each number that has one with a small letter.
fn identified(lines: &mut Lines) {
    for identification in IDENTIFICATIONS.chars() {
        lines.line(&format!("S0281388{identification}"));
    }
    for number in 4..=17 {
        lines.line(&format!("U00000{number:02X}b"));
    }
    lines.each(&[
        "S0600003c",
        "S0800000d",
        "S0880000e",
        "SA900000f",
        "s01FFFFFa",
        "RB000012b",
        "U000000ED",
        "U000000Ed",
    ]);
}

/// From words: U with every number, S and s with all codes, R; each switch digit; each
/// status bit that the page's own rows do not have alone.
pub(super) fn blocks(lines: &mut Lines) {
    for number in 0..=18 {
        lines.line(&format!("U70000{number:02X}"));
        lines.line(&format!("U00000{number:02X}A"));
    }
    identified(lines);
    lines.each(&COUNTERS);
    lines.each(&ECHOES);
    for bit in [0, 1, 3, 7, 8] {
        lines.line(&format!("S06{:05X}", 1 << bit));
    }
    lines.each(&["S060000B", "S0600023", "S0600044", "S0600050", "S060007C", "S060007D", "S060007E"]);
    lines.each(&[
        "S060007F",
        "S060007FF",
        "SD60007F0",
        "S06000FF",
        "S0680000",
        "S0610000",
        "U1000011",
        "UF0000113",
        "UB00000A0",
    ]);
    for switch in 0..16 {
        lines.line(&format!("R{switch:X}{:06X}", 0x111111 * switch));
    }
    lines.each(&["R0FFFFFF", "R0ABCDEF7", "R0000000F", "R9123456", "RF0000000"]);
}
