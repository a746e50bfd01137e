//! Stored vectors, M: longest axes and ties for the master picker.

use crate::text::Text;

/// Host end: the master picker.
pub(super) fn pickers(text: &mut Text) {
    text.heading("picker: all 0, all equal, greatest");
    for distance in [0, 1, 524_287, 524_288, 0x8000_0000, u32::MAX] {
        text.picker([distance; 5]);
    }
    text.heading("picker: each axis alone the longest, and alone above 0");
    for axis in 0..5 {
        for (others, longest) in [(0, 1), (7, 8), (524_286, 524_287), (0x7FFF_FFFF, 0x8000_0000), (0, u32::MAX)] {
            let mut distances = [others; 5];
            distances[axis] = longest;
            text.picker(distances);
        }
    }
    ties(text);
    text.heading("picker: rising, falling, mixed");
    text.picker([1, 2, 3, 4, 5]);
    text.picker([5, 4, 3, 2, 1]);
    text.picker([3, 1, 4, 1, 5]);
    text.picker([0, 3, 2, 3, 1]);
    text.picker([0x0100_0000, 0x00FF_FFFF, 0x0100_0000, 0x0000_FFFF, 0x0000_00FF]);
}

/// Host end: of equals the lowest axis.
fn ties(text: &mut Text) {
    text.heading("picker: ties of every pair, above the others and below them");
    for low in 0..5 {
        for high in low + 1..5 {
            for (others, tied) in [(0, 1), (5, 9), (9, 5), (u32::MAX - 1, u32::MAX)] {
                let mut distances = [others; 5];
                distances[low] = tied;
                distances[high] = tied;
                text.picker(distances);
            }
        }
    }
}
