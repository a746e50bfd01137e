//! Stored lists: crooked moves, whole, stopped, reset and slowed under way, and shares of other masters.

use crate::text::Text;

/// Shares: a crooked move of master distance 1,000 with 333, 667, 1 and minus 999.
const CROOKED: [&str; 5] = ["P00003E8", "P010014D", "P020029B", "P0300001", "P04803E7"];

/// Shares: a list for each thing that can happen to the crooked move.
pub(super) fn crooked_moves(text: &mut Text) {
    whole_crooked_move(text);
    stopped_crooked_moves(text);
    position_resets_under_way(text);
    speed_changes_under_way(text);
    other_masters(text);
}

/// Shares: a list that begins with the start of the crooked move.
fn crooked_list(text: &mut Text, words: &str) {
    text.fast_list(0x00, 0x00, words, &CROOKED);
    text.readings();
    text.lines(&["Q080"]);
}

/// Shares: all axes reach their distances in one tick.
fn whole_crooked_move(text: &mut Text) {
    crooked_list(text, "A crooked move to its end: 1,000 with 333, 667, 1 and minus 999");
    text.read_after_each(&[245; 28], 0);
    text.read_after_each(&[4; 40], 0);
    text.lines(&["q08", "Q06"]);
    text.end();
}

/// Shares: a stop leaves every axis at its share.
fn stopped_crooked_moves(text: &mut Text) {
    crooked_list(text, "The crooked move stopped at odd pulses, and begun again from there");
    for before in [777, 1_501, 2_003, 3_333] {
        text.read_after(before, 0);
        text.lines(&["Q00", "Q01", "Q02", "Q03", "Q04", "Q09"]);
        text.read_after_each(&[17; 12], 0);
        text.read_after(before, 0);
        text.read_lines(&["q08000002", "Q080"]);
    }
    text.end();
}

/// Shares: a position reset keeps travel.
fn position_resets_under_way(text: &mut Text) {
    crooked_list(text, "The crooked move with position resets under way; travels stay");
    for before in [1, 2_000, 3_000, 333] {
        text.read_after(before, 0);
        text.read_lines(&["q08", "Q0B", "q08"]);
        text.read_after(1, 0);
    }
    text.read_after(2_000, 0);
    text.read_lines(&["q08", "Q0B"]);
    text.read_after(2, 0);
    text.end();
}

/// Ramp: speed may change while a move runs.
fn speed_changes_under_way(text: &mut Text) {
    crooked_list(text, "The crooked move slowed under way, brought to a crawl and sped up again");
    text.read_after(1_500, 0);
    for (speed, ticks) in [(0x20000, 500), (0x01000, 1_500), (0x00001, 300), (0xF4240, 1_000), (0x08000, 2_000)] {
        text.read_lines(&[&format!("P08{speed:05X}")]);
        text.read_after_each(&[ticks / 5; 5], 0);
    }
    text.lines(&["P08F4240"]);
    text.read_after_each(&[400; 20], 0);
    text.end();
}

/// Shares: masters 1 to 4 with the five digits of each axis's distance line.
const OTHER_MASTERS: [(u32, [u32; 5]); 4] = [
    (1, [4, 5, 2, 3, 0]),
    (2, [7, 7, 7, 6, 1]),
    (3, [0x8001D, 0x1C, 0x8000F, 0x1E, 0x80001]),
    (4, [0x80011, 0x80007, 0, 0x80000, 0x80011]),
];

/// Shares: the master need not be axis 0.
fn other_masters(text: &mut Text) {
    text.fast_list(0x00, 0x00, "Shares of other masters: ties, 1 of many, nearly all, each direction", &[]);
    for (master, distances) in OTHER_MASTERS {
        for (axis, distance) in distances.iter().enumerate() {
            text.lines(&[&format!("P0{axis}{distance:05X}")]);
        }
        text.lines(&[&format!("Q08{master}")]);
        text.read_after_each(&[50; 25], 0);
        text.lines(&["q08"]);
    }
    text.end();
}
