//! From words, rule 2, and "Lines of the other bench make": commands of an MD5230D station, and what is near them.

use super::lines::Lines;
use crate::station::NAMES;

/// Lines of the other bench make: every example of the section, in the order of the page.
const PAGE: [&str; 25] = [
    "LNI X -20000, Y 20000",
    "SPD X 35000",
    "INC X 5000",
    "INC Y -5000",
    "LNI X -20000, Y 20000",
    "SST X",
    "SST Y",
    "SST X,Y",
    "SST X, Y",
    "spd X 5",
    "INC X -0",
    "INC Y -0",
    "FOO X 1",
    "INC X",
    "LNI Y 1,X 1",
    "SPD X -5",
    "INC X +5",
    "SST",
    "ABS X 1000",
    "HOM X",
    "RST",
    "SPD X 0",
    "SPD X 250001",
    "INC X -524288",
    "INC X 18446744073709551619",
];

/// Lines of the other bench make: speeds and distances at their ends, and numbers of any length.
const NUMBERS: [&str; 22] = [
    "SPD X 1",
    "SPD Y 0001",
    "SPD Y 250000",
    "SPD Y 0",
    "SPD X 1073741829",
    "SPD X 4294967301",
    "SPD Y 18446744073709551619",
    "INC X 1",
    "INC X -1",
    "INC X 524287",
    "INC Y -524287",
    "INC Y 524288",
    "INC X 4294967296",
    "INC Y -4294967301",
    "INC X 1000000000000000000000000000000",
    "INC Y -000",
    "LNI X 524287,Y -524287",
    "LNI X 524288,Y 0",
    "LNI X 0, Y -524288",
    "LNI X 7, Y 8",
    "LNI X -8,Y -7",
    "LNI X -0,Y 0",
];

/// Lines of the other bench make: other forms of the four.
const OTHER_FORMS: [&str; 19] = [
    "SPD",
    "SPD X",
    "SPD Z 5",
    "SPD x 5",
    "SPD  X 5",
    "SPD X 5 ",
    "SPD X,Y 5",
    "SPD X 1.5",
    "INC X 20,000",
    "INC X 1,Y 1",
    "INC X -",
    "LNI X 1",
    "LNI X 1 Y 1",
    "LNI X 1 ,Y 1",
    "LNI X 1,  Y 1",
    "LNI X +1,Y 1",
    "SST Y,X",
    "SST X,",
    "SST X ",
];

/// From words, rules 2 and 3: next to reply blocks, which three capitals go before.
const NEXT_TO_BLOCKS: [&str; 18] = [
    "SAP X 1",
    "SAF",
    "SAF X 1",
    "SDR 0 0 0 0",
    "UAB",
    "RAF 1",
    "RDR 000012",
    "SA",
    "SA X 1",
    "SAFE",
    "SAFE X 1",
    "SAP0",
    "SA0 X 1",
    "S0F X 1",
    "sAP X 1",
    "RES",
    "RESE",
    "RESET 0",
];

/// From words, rules 2 and 5: next to words; neither `silent` nor `as` goes with a command.
const NEXT_TO_WORDS: [&str; 34] = [
    "SPD X 10",
    "SPDX 1",
    "SPd X 1",
    "FOO",
    "FO X",
    "F X 1",
    "FOOO X 1",
    "Foo X 1",
    "foO X 1",
    "FOO as 1",
    "LOW 00010",
    "LOW",
    "silent SPD X 5",
    "silent SST X",
    "silent INC X 5 as A",
    "silent FOO",
    "SPD X 5 as A",
    "SST X as A",
    "SST as A",
    "RST as A",
    "SST silent",
    " SST X",
    "SST  X",
    "SST\tX",
    "SST X\r",
    "SST\r",
    "RST\r",
    "AAA",
    "ZZZ 1 2 3 4",
    "@AA X 1",
    "AA[ X 1",
    "A-B X 1",
    "A1B X 1",
    "D 0 SST X",
];

/// From words: bytes that no name and no form has. A 00 that is typed is one too many.
const ODD_BYTES: [&[u8]; 8] =
    [b"SST X\0", b"INC X 5\0", b"SST\0", b"SST\0X", b"ABS \0", b"\xD3ST X", b"SST \xD8", b"INC X \xE2\x88\x925"];

/// From words, rule 1: so many zeros make a command 99 characters long; with one more it has no form.
fn lengths(lines: &mut Lines) {
    for length in [99, 100] {
        for (before, behind) in [("INC X ", "5"), ("INC Y -", "524288"), ("LNI X ", "7, Y -8"), ("ABS X ", "1")] {
            let zeros = "0".repeat(length - before.len() - behind.len());
            lines.line(&format!("{before}{zeros}{behind}"));
        }
        lines.line(&format!("SPD Y {}", "9".repeat(length - 6)));
        lines.line(&format!("FOO {}", "x".repeat(length - 4)));
    }
}

/// From words: commands of a station, and what is near them.
pub(super) fn station(lines: &mut Lines) {
    lines.each(&PAGE);
    for name in NAMES {
        lines.bytes(name);
    }
    lines.each(&NUMBERS);
    lines.each(&OTHER_FORMS);
    lines.each(&NEXT_TO_BLOCKS);
    lines.each(&NEXT_TO_WORDS);
    ODD_BYTES.iter().for_each(|line| lines.bytes(line));
    lengths(lines);
}
