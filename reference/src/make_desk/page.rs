//! From words: every example line of the section, in the order of the page.

use super::lines::Lines;

/// From words, first table, and the examples under it.
const COMMANDS: [&str; 25] = [
    "start 0",
    "start 0 after dwell",
    "travel 2",
    "position 1",
    "dwell 20",
    "watch 3",
    "polarity 003",
    "low 00010",
    "high 01000",
    "outputs ABCDEF",
    "speed 2500.25",
    "slope 1250",
    "distance 2 -5000",
    "stop",
    "status",
    "everything",
    "inputs",
    "clear",
    "reset",
    "carry on",
    "silent stop",
    "stop as A",
    "stop as a",
    "dwell 16384",
    "speed 0.3",
];

/// From words, second table, and the examples under it.
const PROGRAM_WORDS: [&str; 10] = [
    "opening",
    "master 5 2 3 0 0",
    "ticks 1000",
    "ticks 1000 000010",
    "trial 0",
    "trial 0 6000",
    "trial 0 6000 002000",
    "trial 5 1000001 1000000",
    "trial 5 1000001",
    "trial 5",
];

/// From words, nearest forms.
const NEAREST: [&str; 4] = ["Speed 5", "strt 0", "silent ticks 5", "?"];

/// From words, replies.
const REPLIES: [&str; 29] = [
    "U0000000",
    "U000000E",
    "S0281388",
    "S0000005",
    "S0600000",
    "S0600003",
    "S0600009",
    "S0600004",
    "S0600010",
    "S0600020",
    "S0600040",
    "S0800000",
    "S0880000",
    "S0900000",
    "S0A00000",
    "S0B1FA00",
    "S0C12300",
    "U000001A",
    "S0D00010",
    "S0E01000",
    "s01FFFFF",
    "R0000012",
    "SA281388",
    "S02813887",
    "U0000000a",
    "UA00000EB",
    "S0700000",
    "s0000abca",
    "1 -1 0 0 0",
];

/// From words: the examples.
pub(super) fn examples(lines: &mut Lines) {
    lines.line("RESET");
    lines.each(&COMMANDS);
    lines.each(&PROGRAM_WORDS);
    lines.each(&NEAREST);
    lines.each(&REPLIES);
}
