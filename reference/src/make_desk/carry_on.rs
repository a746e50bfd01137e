//! From words: `carry on`, its echo and its number, with what is near each of them.

use super::lines::Lines;

/// From words: the form with `silent` and `as`, good and bad.
const WISHES: [&str; 16] = [
    "carry on",
    "silent carry on",
    "carry on as A",
    "carry on as 0",
    "silent carry on as F",
    "carry on as f",
    "carry on as G",
    "carry on as  ",
    "carry on as",
    "carry on as AB",
    "carry on  as A",
    "carry on as A as B",
    "silent silent carry on",
    "silent  carry on",
    "carry as A",
    "silent carry as A",
];

/// From words: what has no form. Of `c` alone `clear` stands first in the tables.
const NO_FORMS: [&str; 30] = [
    "carry",
    "carry ",
    "carry  on",
    " carry on",
    "carry on ",
    "carry on\r",
    "carry\ton",
    "carry on 0",
    "carry on on",
    "carry off",
    "carry o",
    "carry onn",
    "carry On",
    "Carry on",
    "CARRY ON",
    "carryon",
    "carry-on",
    "carried on",
    "on",
    "go on",
    "carry 0",
    "carry 123",
    "c",
    "C on",
    "ca",
    "cA",
    "cl on",
    "continue",
    "resume",
    "silent carry off",
];

/// From words: echoes of a carry-on, and U with 26; then what is near them.
const BLOCKS: [&str; 33] = [
    "S0C00000",
    "S0CFFFFF",
    "S0C00001",
    "S0CABCDE7",
    "S0C000000",
    "SFC12345",
    "SAC12345A",
    "U000001AA",
    "U000001A0",
    "U000001Aa",
    "S0C12300f",
    "U700001A",
    "UF00001AF",
    "U0000012",
    "U0000013",
    "U0000014",
    "U0000015",
    "U0000016",
    "U0000017",
    "U0000018",
    "U0000019",
    "U000001B",
    "U000001C",
    "U000001F",
    "U000001a",
    "U000001Ag",
    "U00001A",
    "U00001A0",
    "UC00001A",
    "SCC00000",
    "S0C0000",
    "S0C00000g",
    "s0C00000",
];

/// From words: carry-ons.
pub(super) fn carry_on(lines: &mut Lines) {
    lines.each(&WISHES);
    lines.each(&NO_FORMS);
    lines.each(&BLOCKS);
}
