//! Stored lists: what the program itself takes and does not take.

use crate::text::Text;

/// Stored lists: lines in other forms, parted by `|`.
const OTHER_FORMS: &str =
    "S|S 00|S 00 0|S 0 00|S 00 00 |S 00  00|S 00 00 00|S 0a 0B|s 00 00|S 00 0G|S -1 00|L|L |l Q06|LQ06|\
    LL Q06|B|B 00|B 00 0|B 0 78|B 00 100|B 00 78 |B 0d 78|b 0D 78|T|T 000001|T 1 00000000|\
    T 000001 000000|T 000001 0000000a|T 000001 00000000 |T 00001 00000000|T 000001  00000000|\
    t 000001 00000000|T000001 00000000|R |R 0|r|RR|E |e|E 00| E|X|?";

/// Stored lists: other forms, switches that are none, and the ends of what is taken.
pub(super) fn other_forms(text: &mut Text) {
    lines_in_other_forms(text);
    text.list(0x05, 0x04, "The last switch below the first: nothing is printed");
    text.end();
    longest_line(text);
    longest_list(text);
    text.list(0x00, 0x00, "A new list forgets that one");
    text.plain("E");
}

/// Stored lists: a line in another form prints `?` and leaves what is gathered.
fn lines_in_other_forms(text: &mut Text) {
    text.list(0x00, 0x01, "Lines in other forms print a question mark each and gather nothing");
    text.lines(&["P0000001"]);
    text.plain("E");
    for line in OTHER_FORMS.split('|') {
        text.plain(line);
    }
    text.heading("the list is what it was, and stays gathered when it is played; no ticks at all are one call");
    text.plain("E");
    text.ticks(0, 0xFFFF_FFFF);
    text.plain("E");
    text.plain("");
    text.end();
}

/// Stored lists: a line of 100 characters is taken, one of 101 is not.
fn longest_line(text: &mut Text) {
    text.list(0x00, 0x00, "Text with spaces and signs; 98 characters are taken, 99 make the line too long");
    text.lines(&[" ", "  Q06", "#", "Q06 ", "?"]);
    for count in [98, 99] {
        text.lines(&[&"7".repeat(count)]);
        text.plain("E");
    }
}

/// Stored lists: 4,096 calls are taken, and no more.
fn longest_list(text: &mut Text) {
    text.list(0x00, 0x00, "A list of 4,096 calls; what would go past that gathers nothing");
    for _ in 0..41 {
        text.lines(&[&"Q".repeat(97)]);
    }
    text.lines(&[&"q".repeat(76), "Q"]);
    text.bytes(b"q0", 120);
    text.ticks(1, 0);
    text.readings();
    text.lines(&["Q06"]);
    text.plain("E");
}
