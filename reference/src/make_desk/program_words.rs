//! From words, second table: `opening`, `master` and `ticks`, with ties and bounds.

use super::lines::Lines;

/// From words: the master picker, ties of neighbours and of the ends; numbers over 4,294,967,295 count as equal.
const MASTERS: [&str; 21] = [
    "0 0 0 0 0",
    "1 1 1 1 1",
    "1 0 0 0 0",
    "0 1 0 0 0",
    "0 0 0 1 0",
    "0 0 0 0 1",
    "5 6 7 8 8",
    "0 3 2 3 1",
    "2 1 2 1 2",
    "524287 524288 0 0 0",
    "0 0 4294967294 4294967295 0",
    "0 4294967295 4294967296 0 0",
    "0 4294967294 99999999999999999999 4294967295 0",
    "00009 10 8 007 0",
    "",
    "5",
    "5 2 3 0",
    "5 2 3 0 0 0",
    "5 2 3 0 -1",
    "5 2 3 0 A",
    "5 2  3 0 0",
];

/// From words: ticks at their bounds, and words at theirs.
const TICKS: [&str; 28] = [
    "1",
    "999999",
    "1000000",
    "0001000",
    "00000000000000000001000000",
    "1 0",
    "1 00abcd",
    "1000000 FFFFFF",
    "1000000 00000000FFFFFF",
    "1 1000000",
    "1 FFFFFFFF",
    "1 100000000",
    "0",
    "1000001",
    "4294967296",
    "4294967297",
    "0 1000000",
    "1000001 1000000",
    "-1",
    "+1",
    "1.0",
    "A",
    "",
    "1 ",
    "1 G",
    "1 -1",
    "1 0 0",
    "1  0",
];

/// From words: the second table, and its words with `silent` and `as`.
pub(super) fn program_words(lines: &mut Lines) {
    lines.behind("master", &MASTERS);
    lines.behind("ticks", &TICKS);
    lines.each(&["master", "ticks", "Ticks 5", "opening 0", "Opening", "open"]);
    lines.each(&["silent opening", "opening as A", "silent opening as A", "silent master 5 2 3 0 0"]);
    lines.each(&["master 5 2 3 0 0 as 0", "master 5 2 3 0 as 0", "ticks 1000 as A", "ticks 1000 000010 as A"]);
    lines.each(&["silent ticks 1000 000010 as A", "silent ticks 1 1000000"]);
}
