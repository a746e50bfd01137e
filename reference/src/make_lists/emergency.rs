//! Stored lists: emergency, low-ON and high-ON, its hold, and what frees it.

use crate::text::Text;

/// Stops: emergency, with a setting, the word that leaves it free and the word that makes it active.
pub(super) fn emergency(text: &mut Text) {
    for (setting, free, active) in [("Q0D01000", 0x1000, 0), ("Q0E01000", 0, 0x1000)] {
        let words = format!("Emergency with {setting}: held; freed by a reset with the input inactive");
        text.fast_list(0x00, 0x00, &words, &["P0000014", "P0480013"]);
        held_by_a_tick(text, setting, active);
        freed_by_a_reset(text, free, active);
        freed_under_way(text, free, active);
        freed_while_disabled(text, active);
        emergency_with_other_causes(text);
        text.end();
    }
}

/// Stops: emergency is held in the tick order only.
fn held_by_a_tick(text: &mut Text, setting: &str, active: u32) {
    text.ticks(1, active);
    text.heading("the setting alone holds nothing; a start is taken and its first tick stops it");
    text.read_lines(&[setting, "Q06", "Q080"]);
    text.read_after(1, active);
    text.read_lines(&["Q06", "Q080"]);
}

/// Stops: the hold outlasts its input until a reset.
fn freed_by_a_reset(text: &mut Text, free: u32, active: u32) {
    text.heading("a reset while the input is active zeroes positions and frees nothing");
    text.read_lines(&["Q0B"]);
    text.read_after(1, free);
    text.read_lines(&["Q080", "Q0B", "Q06", "Q080"]);
    text.read_runs(&[(400, free), (1, active)]);
}

/// Stops: a reset under way frees the hold and not the stop.
fn freed_under_way(text: &mut Text, free: u32, active: u32) {
    text.heading("the stop goes on though the input is free and the hold is freed under way");
    text.read_after(20, free);
    text.read_lines(&["Q0B", "Q06"]);
    text.read_after(400, free);
    text.lines(&["Q080"]);
    text.read_runs(&[(400, free), (1, active)]);
    text.read_lines(&["Q0B"]);
    text.read_after(400, active);
}

/// Stops: a disabled input does not keep the hold.
fn freed_while_disabled(text: &mut Text, active: u32) {
    text.heading("disabled: the input is active but not set, so a reset frees");
    text.read_lines(&["Q0D00000", "Q0E00000", "Q06", "Q080", "Q0B", "Q06", "Q080"]);
    text.read_after(100, active);
}

/// Stops: several causes meet a move at once.
fn emergency_with_other_causes(text: &mut Text) {
    text.heading("emergency, sensor and limit in one tick");
    text.lines(&["Q0E03001", "Q0D00000"]);
    text.read_runs(&[(1, 0x3001), (300, 0)]);
    text.read_lines(&["Q080", "q08", "Q0B"]);
}
