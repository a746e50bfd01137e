//! From words, second table: `trial`, with bounds, the order of its numbers and what has no form.

use super::lines::Lines;

/// From words: good forms at their bounds, with leading zeros and words of either case.
const GOOD: [&str; 15] = [
    "4",
    "0004",
    "0 0",
    "3 1",
    "4 999999",
    "4 1000000",
    "0 00000000000000000001000000",
    "0 6000 0",
    "0 0 FFFFFF",
    "4 1000000 ffffff",
    "1 1000 00abcd",
    "2 1000 AbCdEf",
    "0 1 00000000FFFFFF",
    "000 000 000",
    "0 1 1000",
];

/// From words: masters over 4, and those that 8 or 32 bits take for smaller ones.
const MASTERS: [&str; 6] = ["5", "9", "255", "256", "4294967295", "4294967296"];

/// From words: 3, 25 and 10 alone and together, the numbers over 4,294,967,295 among them.
const TURNED_AWAY: [&str; 17] = [
    "0 0 1000000",
    "0 6000 FFFFFFFF",
    "0 6000 100000000",
    "0 6000 100000001",
    "0 1000001 1000000",
    "5 6000 1000000",
    "9 2000000 1000000",
    "99999999999999999999 99999999999999999999 99999999999999999999",
    "0 1000001",
    "0 4294967295",
    "0 4294967296",
    "0 4294967297 FFFFFF",
    "0 18446744073709551617",
    "5 1000001 FFFFFF",
    "4294967296 4294967296",
    "5 1000000",
    "256 0 FFFFFF",
];

/// From words: what has no form, where a number would be turned away too.
const NO_FORMS: [&str; 27] = [
    "",
    " 0",
    "0 ",
    "-1",
    "+1",
    "-0",
    "A",
    "0x1",
    "1.0",
    "0 -1",
    "0 +1",
    "0 A",
    "0 6,000",
    "0 6000.0",
    "0 6000 ",
    "0  6000",
    "0 6000  0",
    "0 6000 G",
    "0 6000 -1",
    "0 6000 0x10",
    "0 6000 0 0",
    "0 after dwell",
    "5 x",
    "5 1000001 G",
    "x 1000001 1000000",
    "0\t6000",
    "0 6000\r",
];

/// From words: misspelt, with `silent` and with `as`.
const OTHERS: [&str; 18] = [
    "trial",
    "Trial 0",
    "TRIAL 0",
    "tria 0",
    "tri",
    "trials 0",
    "trial0",
    "trail 0",
    "try 0",
    "silent trial 0",
    "trial 0 as A",
    "silent trial 0 as A",
    "silent trial 0 6000 002000",
    "trial 0 6000 as 0",
    "trial 0 6000 002000 as z",
    "silent trial 5",
    "trial 5 as A",
    "silent trial",
];

/// From words: `trial`. Zeros make a good form so long; from 100 characters on it has none.
pub(super) fn trials(lines: &mut Lines) {
    lines.behind("trial", &GOOD);
    lines.behind("trial", &MASTERS);
    lines.behind("trial", &TURNED_AWAY);
    lines.behind("trial", &NO_FORMS);
    lines.each(&OTHERS);
    for zeros in ["0".repeat(85), "0".repeat(86)] {
        lines.line(&format!("trial 0 {zeros}6000 0"));
        lines.line(&format!("trial {zeros}5 6000 0"));
    }
}
