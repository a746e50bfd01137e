//! Stored vectors: lines in other forms, over-long lines, empty lines.

use crate::text::Text;

/// Stored vectors: lines in other forms.
const OTHER_FORMS: [&str; 62] = [
    "W",
    "W 0A 0 09 00 0 00000000",
    "W 0A 0 09 00 0 00000000 -- ",
    "W 0A 0 09 00 0 00000000 -",
    "W 0A 0 09 00 0 00000000 ---",
    "W 0A 0 09 00 0 00000000 4a",
    "W 0A 0 09 00 0 00000000 4",
    "W 41 0 09 00 0 00000000 --",
    "W FF 0 09 00 0 00000000 --",
    "W A 0 09 00 0 00000000 --",
    "W 0A 2 09 00 0 00000000 --",
    "W 0A F 09 00 0 00000000 --",
    "W 0A 00 09 00 0 00000000 --",
    "W 0A 0 13 00 0 00000000 --",
    "W 0A 0 FF 00 0 00000000 --",
    "W 00 0 13 00 0 00000000 --",
    "W 0A 0 9 00 0 00000000 --",
    "W 0A 0 09 0 0 00000000 --",
    "W 0A 0 09 00 2 00000000 --",
    "W 0A 0 09 00 0 0000000 --",
    "W 0A 0 09 00 0 000000000 --",
    "W 0A 0 01 00 0 0000000a --",
    "W 0A  0 09 00 0 00000000 --",
    "W 0A 0 09 00 0 00000000 -- 0",
    " W 0A 0 09 00 0 00000000 --",
    "w 0A 0 09 00 0 00000000 --",
    "B",
    "B 5",
    "B 523",
    "B 52 30",
    "B 52 ",
    "B 5g",
    "B 0d",
    "B 5230303030303030300D0D0D0D0D0D0D0D",
    "B 5230303030303030300D0D0D0D0D0D0D0",
    "b 52",
    "M",
    "M 00000000 00000000 00000000 00000000",
    "M 00000000 00000000 00000000 00000000 00000000 00000000",
    "M 00000000 00000000 00000000 00000000 0000000",
    "M 00000000 00000000 00000000 00000000 0000000a",
    "F V + 20000000000001 800",
    "F V N 20000000000001 800",
    "F A - FFFFFFFFFFFFFF 800",
    "F W + 00000000000001 7FE",
    "F v + 00000000000001 7FE",
    "F V * 00000000000001 7FE",
    "F V + 0000000000001 7FE",
    "F V + 00000000000001 07FE",
    "F V + 00000000000001",
    "F V 00000000000001 7FE",
    "U V",
    "U V 0000001",
    "U P 00000001",
    "D",
    "D P",
    "D V ",
    "D V A",
    "G 00001",
    "G 00001 0001",
    "G 00001 0000g",
    "hello",
];

/// Stored vectors: what the program itself does not take.
pub(super) fn other_forms(text: &mut Text) {
    text.heading("lines in other forms: each prints a question mark");
    for line in OTHER_FORMS {
        text.plain(line);
    }
    text.heading("an empty line prints nothing; a line of 100 characters and one of 101, both in other forms");
    text.plain("");
    text.plain(&format!("B {}", "0".repeat(98)));
    text.plain(&format!("B {}", "0".repeat(99)));
}
