//! From words: `silent ` before a form and ` as ` with an identification behind it.

use super::lines::Lines;
use crate::text::{IDENTIFICATIONS, NEXT_TO_THEM};

/// From words: each command of the first table once.
const COMMANDS: [&str; 20] = [
    "start 1",
    "start 4 after dwell",
    "travel 3",
    "position 4",
    "dwell 16383",
    "watch 2",
    "polarity fff",
    "low 33FF",
    "high 2000",
    "outputs 00FF00",
    "speed 250000",
    "slope 5118.75",
    "distance 1 -7",
    "stop",
    "status",
    "everything",
    "inputs",
    "clear",
    "reset",
    "carry on",
];

/// From words: what stands before a form or behind it, where it should and where it should not.
const COMBINATIONS: [&str; 37] = [
    "silent",
    "silent ",
    "silent  stop",
    "silent silent stop",
    "Silent stop",
    "SILENT stop",
    "silentstop",
    "silent\tstop",
    " silent stop",
    "stop silent",
    "silent x",
    "silent start",
    "silent dwell 16384",
    "as A",
    " as A",
    "silent as A",
    "silent  as A",
    "stop as",
    "stop as ",
    "stop as  ",
    "stop as AB",
    "stop as A ",
    "stop  as A",
    "stop as  A",
    "stop asA",
    "stop As A",
    "stop as A as B",
    "stop as as",
    "stopas A",
    "stop 1 as A",
    "as as A",
    "dwell 16384 as z",
    "dwell as A",
    "help as A",
    "1 -1 0 0 0 as A",
    "silent 1 -1 0 0 0",
    "silent U0000000",
];

/// From words: identifications good and bad; of bytes beyond the letters and digits a few.
pub(super) fn identifications(lines: &mut Lines) {
    for identification in IDENTIFICATIONS.chars().chain(NEXT_TO_THEM.chars()).chain(['z']) {
        lines.line(&format!("stop as {identification}"));
    }
    for identification in [0, 13, 127, 128, 193, 255] {
        lines.bytes(&[b"status as ", &[identification][..]].concat());
    }
}

/// From words: each command with an identification, silent and not; then odd combinations. Paper 02, 7/14: either case.
pub(super) fn wishes(lines: &mut Lines) {
    for (command, identification) in COMMANDS.iter().zip("0123456789ABCDEF0123".chars()) {
        lines.line(&format!("{command} as {identification}"));
        lines.line(&format!("silent {command} as {identification}"));
    }
    for (command, identification) in COMMANDS.iter().zip("abcdef".chars().cycle()) {
        lines.line(&format!("{command} as {identification}"));
    }
    lines.each(&["silent stop as a", "silent inputs as f", "outputs ABCDEF as A", "outputs ABCDEF as a"]);
    lines.each(&["silent start 0 after dwell", "silent outputs ABCDEF", "silent inputs", "silent speed 2500.25"]);
    lines.each(&COMBINATIONS);
}
