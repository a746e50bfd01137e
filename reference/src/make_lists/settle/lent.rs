//! Stored lists: ticks that are turned away by their lent buffer (2) and their word (3), and buffers that hold a block.

use super::WITHOUT;
use crate::text::Text;

/// Turned away, 2 and 3: a word and a lent length. Where both hold, 2 is met first.
const TURNED_AWAY: [(u32, u8); 9] = [
    (0x00_0000, 0x00),
    (0xFF_FFFF, 0x01),
    (0x12_3456, 0x09),
    (0x12_3456, 0x77),
    (0x0100_0000, 0x00),
    (0x0100_0000, 0x77),
    (0xFFFF_FFFF, 0x77),
    (0x0100_0000, 0x78),
    (0xFFFF_FFFF, 0xFF),
];

/// Paper 02, 3/14: a tick is lent a reply buffer, and 2 holds for it.
pub(super) fn lent(text: &mut Text) {
    turned_away_between(text);
    turned_away_in_a_move(text);
    whole_buffers(text);
    other_forms(text);
}

/// Turned away, 2 and 3: ticks of every such kind, read after each.
fn turned_away(text: &mut Text) {
    for (word, lent) in TURNED_AWAY {
        text.lent_tick(word, lent);
        text.readings();
    }
}

/// Paper 02, 3/14: ticks that are turned away do not count to the 2,500.
fn turned_away_between(text: &mut Text) {
    text.list(0x00, 0x0F, "Settled inputs: ticks turned away by 2, by 3, and by 2 though 3 holds too, do not count");
    turned_away(text);
    text.lines(&["q08", "W0FFFFFF6"]);
    turned_away(text);
    text.ticks(1_000, 0x00_0001);
    turned_away(text);
    text.lines(&["q08"]);
    text.ticks(WITHOUT - 1_000, 0x00_0002);
    text.heading("the next one taken is the 2,500th, however many are turned away before it");
    turned_away(text);
    text.ticks(300, 0x0100_0000);
    text.lines(&["q08"]);
    text.lent_tick(0x65_4321, 0x78);
    turned_away(text);
    text.ticks(1, 0x00_0003);
    text.end();
}

/// Turned away, 2: nothing altered in a move, in the tick that would end it, in a dwell and before a stored start.
fn turned_away_in_a_move(text: &mut Text) {
    text.fast_list(
        0x08,
        0x08,
        "Ticks turned away by 2 and 3 in a move, before its last tick, in a dwell and before a stored start",
        &["P0000001", "P0180001", "P0A00001", "P0C00003", "W0A5A5A5", "Q080"],
    );
    for ticks in [0, 100, 106] {
        text.read_after(ticks, 0);
        turned_away(text);
    }
    text.lent_tick(0, 0x79);
    text.lines(&["Q088", "Q0E03003"]);
    text.heading("no sensor, limit or emergency is met; 250 ticks of dwell, the last begins the stored start");
    for ticks in [1, 248] {
        text.read_after(ticks, 0);
        turned_away(text);
    }
    text.lent_tick(0, 0xFF);
    turned_away(text);
    text.read_after_each(&[205, 1], 0);
    text.end();
}

/// Replies: a block is the front part of the lent buffer; the bytes behind it keep their values.
fn whole_buffers(text: &mut Text) {
    text.list(0x0B, 0x0D, "Settled inputs: the whole buffer of the tick with the block, lent 120 to 255 bytes");
    for lent in [0x78, 0x79, 0x7F, 0x80, 0xFE, 0xFF] {
        for line in ["W0", "W0C3C3C3C", "W4C3C3C3C"] {
            text.lines(&[line]);
            text.ticks(WITHOUT - 1, 0x00_0000);
            text.lent_tick(0x000FFF, lent);
            text.lent_tick(0xFFF000, 0x77);
            text.lent_tick(0xFED000 | lent as u32, lent);
            text.lent_tick(0x000FFF, lent);
        }
    }
    text.end();
}

/// Stored lists: lines that begin with K in other forms, parted by `|`.
const OTHER_FORMS: &str = "K|K |K 00000000|K 00000000 |K 00000000 0|K 0 78|K 000000 78|K 000000000 78|K 00000000 078|\
    K 00000000 78 |K 00000000  78|K  00000000 78|K 0000000a 78|K 00000000 7a|k 00000000 78|K00000000 78|KK 00000000 78|\
    K 00000000 78 78|K 000001 00000000|K -0000001 78|K 0000000G 78";

/// Stored lists: other forms of a tick with its buffer gather nothing; such a tick is one call of 4,096.
fn other_forms(text: &mut Text) {
    text.list(0x00, 0x00, "Ticks with their buffers in other forms print a question mark each and gather nothing");
    text.lent_tick(5, 0x78);
    text.plain("E");
    for line in OTHER_FORMS.split('|') {
        text.plain(line);
    }
    text.end();
    text.list(0x00, 0x00, "A list of 4,096 calls whose last is a tick with its buffer; another gathers nothing");
    for _ in 0..41 {
        text.lines(&[&"W".repeat(97)]);
    }
    text.lines(&[&"W".repeat(76)]);
    text.lent_tick(1, 0x78);
    text.plain("E");
    text.lent_tick(2, 0x78);
    text.plain("E");
}
