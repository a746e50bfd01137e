//! Stored lists: stops by sensor, low-ON and high-ON.

use crate::text::Text;

/// Stops: the sensor, with a setting, the word that leaves it free and the word that makes it active.
pub(super) fn sensor(text: &mut Text) {
    for (setting, free, active) in [("Q0D02000", 0x2000, 0), ("Q0E02000", 0, 0x2000)] {
        let words = format!("Sensor with {setting}: bit 6; start refused by 13; free again");
        text.fast_list(0x00, 0x00, &words, &["P0000014", "P0480013", setting]);
        text.read_after(1, active);
        text.read_lines(&["Q080", "Q06"]);
        text.read_after(1, free);
        text.read_lines(&["Q080"]);
        text.read_runs(&[(300, free), (1, active), (1, free), (400, free)]);
        sensor_and_order_9(text, free, active);
        text.heading("first tick of a move; both settings at once are always active");
        text.lines(&["Q080"]);
        text.read_runs(&[(1, active), (300, free)]);
        both_settings(text);
        text.end();
    }
}

/// Stops: a move meets both causes, one after the other.
fn sensor_and_order_9(text: &mut Text, free: u32, active: u32) {
    text.heading("order 9 in a move that the sensor stops, and the sensor in a move that order 9 stops");
    text.lines(&["Q080"]);
    text.read_runs(&[(200, free), (5, active)]);
    text.read_lines(&["Q09", "Q06"]);
    text.read_after(300, free);
    text.lines(&["Q080"]);
    text.read_after(200, free);
    text.read_lines(&["Q09"]);
    text.read_runs(&[(5, free), (5, active), (300, free)]);
}

/// Turned away, 13: low-ON and high-ON both have the bit, and then neither.
fn both_settings(text: &mut Text) {
    text.read_lines(&["Q0D02000", "Q0E02000", "Q080"]);
    text.read_after(1, 0);
    text.read_lines(&["Q080"]);
    text.read_after(1, 0x2000);
    text.read_lines(&["Q080", "Q0D00000", "Q0E00000", "Q080"]);
    text.read_after(1, 0x2000);
}
