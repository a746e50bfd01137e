//! Stored vectors, A: the ends of every range, where a group more begins, and the first values beyond.

use super::entries::{LONGEST_ENTRY, LONGEST_TRAVEL, PRINTED, SHORTEST};
use crate::journal::{Entry, STOPPED};
use crate::text::Text;

/// Stored vectors, A: a buffer with room for the longest entry and a byte on either side.
const ROOMY: u8 = 25;

/// Stored vectors, A: an entry in the middle of a buffer.
fn in_the_middle(text: &mut Text, entry: &Entry) {
    text.append(ROOMY, 1, entry);
}

/// Journal: ticks moved and causes.
pub(super) fn ticks_and_causes(text: &mut Text) {
    text.heading("writer: ticks, least and greatest, around each group more, and beyond");
    for power in [7, 14, 21, 28, 35, 42, 45, 49, 63] {
        in_the_middle(text, &Entry { ticks: (1 << power) - 1, ..PRINTED });
        in_the_middle(text, &Entry { ticks: 1 << power, ..PRINTED });
    }
    for ticks in [0, 1, 2, u64::MAX] {
        in_the_middle(text, &Entry { ticks, ..PRINTED });
    }
    text.heading("writer: causes, both and beyond");
    for cause in [0, 1, 2, 3, 0x7F, 0x80, 0x81, 0xFF] {
        in_the_middle(text, &Entry { cause, ..PRINTED });
    }
}

/// Journal: an entry that was stopped, of this travel on one axis.
fn one_travel(axis: usize, travel: i32) -> Entry {
    let mut travels = [0; 5];
    travels[axis] = travel;
    Entry { ticks: 300, cause: STOPPED, travels }
}

/// Journal: the five signed travels.
pub(super) fn travels(text: &mut Text) {
    text.heading("writer: travels, around 0 and around each group more");
    for travel in [0, 1, -1, 2, 63, 64, -64, -65, 8_191, 8_192, -8_192, -8_193] {
        in_the_middle(text, &one_travel(0, travel));
    }
    text.heading("writer: travels of each axis, greatest either way and first beyond");
    for axis in 0..5 {
        for travel in [LONGEST_TRAVEL, LONGEST_TRAVEL + 1] {
            in_the_middle(text, &one_travel(axis, travel));
            in_the_middle(text, &one_travel(axis, -travel));
        }
    }
    text.heading("writer: travels far beyond, the longest entry, and minus zero, which is 0");
    in_the_middle(text, &one_travel(1, i32::MAX));
    in_the_middle(text, &one_travel(3, -i32::MAX));
    in_the_middle(text, &LONGEST_ENTRY);
    text.plain("A 08 01 0000000000000001 00 -00000000 -00000001 +00000000 -00000000 +00000001");
}

/// Journal: the writer gives 24 before 22.
pub(super) fn out_of_range_without_space(text: &mut Text) {
    text.heading("writer: each number out of range, without space and at a place past the end: 24 comes before 22");
    let mut wrong = vec![Entry { ticks: 0, ..SHORTEST }, Entry { cause: 2, ..SHORTEST }];
    wrong.extend((0..5).map(|axis| one_travel(axis, -LONGEST_TRAVEL - 1)));
    for (length, entry) in (0..).zip(&wrong) {
        text.append(length, 0, entry);
        text.append(8, 9 + length, entry);
    }
    text.append(0, 0xFF, &Entry { ticks: u64::MAX, cause: 0xFF, travels: [i32::MAX; 5] });
}
