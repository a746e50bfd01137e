//! From words, rule 6: misspelt words, and first letters that several words have.

use super::lines::Lines;

/// From words: first letters from one to a whole word and beyond, capitals and small letters. The capitals `STA` are a
/// station's command to rule 2.
const WORDS: [&str; 62] = [
    "S",
    "st",
    "sta",
    "STA",
    "star",
    "stat",
    "statu",
    "sto",
    "sTOP",
    "stopp",
    "sp",
    "spd",
    "sl",
    "slow",
    "set",
    "start0",
    "t",
    "tr",
    "travels",
    "ti",
    "TICKS 10",
    "p",
    "P",
    "po",
    "pol",
    "pos",
    "d",
    "di",
    "dist 1 5",
    "dw",
    "distance2 5",
    "w",
    "wait",
    "l",
    "lo",
    "h",
    "hi",
    "High",
    "help",
    "o",
    "ou",
    "op",
    "out",
    "output AB",
    "e",
    "ev",
    "exit",
    "i",
    "in",
    "c",
    "cl",
    "r",
    "re",
    "Reset",
    "m",
    "ma",
    "mister",
    "quit",
    "a",
    "z 5",
    "-stop",
    "5",
];

/// From words: lines of more words, of which the first decides.
const LINES: [&str; 11] = [
    "please stop",
    "go start 0",
    "start 0 please",
    "Status",
    "STOP",
    "silent Stop as A",
    "silent strt 0",
    "T 1000 000000",
    "t 1000",
    "# stop",
    "start\u{e9} 0",
];

/// From words: misspelt words.
pub(super) fn misspelt(lines: &mut Lines) {
    lines.each(&WORDS);
    lines.each(&LINES);
}
