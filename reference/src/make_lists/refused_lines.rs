//! Stored lists: lines turned away by 4 to 10 at rest and by 11 in a move.

use crate::text::Text;

/// Turned away, 4 to 10 and 26: the number and its lines, parted by `|`.
const REFUSED_AT_REST: [(u8, &str); 10] = [
    (4, "P|4|Q|P000000000|Q0600000AB|P00000000000000000000|X100000000|4444444444"),
    (5, "X0|X1G|p0000001|w0|S0|U0000000| Q06|00"),
    (6, "P1000001|Q5|q |W1|PP|Q1G|W2000000|q8800000A"),
    (
        7,
        "P0G00000|Q0 6|q0g|P000000:|W0/|Q0@|Q06`|W0-00001|P0GG|Q0600000G|Q0600000g|Q0600000`|W0000000 |\
     q0800000@|P08F424g|Q0x",
    ),
    (8, "P0|Q0|q0|P05|P0500000|P0600000|P0700000|P0D00000|P0E00000|P0F00000A|Q05|Q0700000B"),
    (26, "Q0C"),
    (8, "Q0F00000|q05|q06|q07|q0900000C|q0A|q0F"),
    (9, "P00|P00000|P080000|P0B|P0C0000|Q08|Q0D|Q0D0000|Q0E00|W01|W012345|W0FFF"),
    (10, "P0800000|P08F4241|P08FFFFFF|P0900000|P0901000D|P0A04000|P0B4|P0BF0000E|P0C01000|P0CFFFFF|Q085|Q08D"),
    (
        10,
        "Q086|Q087|Q08E|Q08F0000F|Q0D00400|Q0D00800|Q0D04000|Q0D08000|Q0D10000|Q0D20000|Q0D40000|Q0D80000|\
     Q0E00400|Q0E00800|Q0E04000|Q0E080001|Q0E10000|Q0E20000|Q0E40000|Q0E800002|Q0DFFFFF|P09FFFFF|\
     P0AFFFFF|P0B80000",
    ),
];

/// Turned away, 4 to 10 and 26: each line replied and silent.
pub(super) fn refused_lines(text: &mut Text) {
    text.list(0x00, 0x01, "Lines turned away by 4 to 10, replied and silent; more values turned away by 10");
    text.ticks(1, 0x123456);
    for (number, lines) in REFUSED_AT_REST {
        text.heading(&format!("number {number}"));
        for line in lines.split('|') {
            text.replied_and_silent(line);
        }
    }
    text.heading("nothing is altered: the settings are those of power-on");
    text.lines(&["q08", "W0"]);
    text.ticks(1, 0);
    text.end();
}

/// Turned away, 4: over 9 characters.
pub(super) fn over_long_lines(text: &mut Text) {
    text.list(0x00, 0x01, "Over-long lines: the first nine characters would be a command; the next line is whole");
    let long = ["P0000001AB", "Q0900000A0", "P400000011", "q080000000000000000000000000000000000", "W0FFFFFFFF"];
    text.lines(&long);
    text.lines(&["Q06", "q08"]);
    text.lines(&[&"Q".repeat(98), "Q06", &"04".repeat(49), "q00"]);
    text.ticks(1, 0);
    text.end();
}

/// Turned away, 11: lines while a move runs.
pub(super) fn lines_in_a_move(text: &mut Text) {
    text.fast_list(
        0x00,
        0x01,
        "Lines turned away by 11 while a move runs, replied and silent; 4 to 10 come before 11",
        &["P0000028", "P0180014", "Q080"],
    );
    text.read_after(100, 0);
    let refused = ["P0000001", "P0480000A", "P0900001", "P0A00001", "P0B1", "P0B00000B", "P0C00001", "Q080", "Q084"];
    for line in refused.iter().chain(&["Q088", "Q08C", "Q0810000F", "P0000000", "P0901000", "P0B4", "Q085", "P00"]) {
        text.replied_and_silent(line);
        text.ticks(3, 0);
    }
    text.heading("taken while a move runs: speed, readings, clear, reset, limits, outputs, order 9");
    for line in ["P08F4240", "P0810000C", "Q00", "Q06", "Q0A", "Q0D00000", "Q0E00000", "q08", "W0", "W0ABCDEF"] {
        text.replied_and_silent(line);
        text.read_after(3, 0);
    }
    text.read_lines(&["Q0B", "Q09"]);
    text.read_after(400, 0);
    text.end();
}
