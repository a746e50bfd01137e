//! Stored lists: entries of carried-on ends: ticks since the carry-on, the whole travels, ticks that do not count.

use super::FIVE;
use crate::text::Text;

/// Journal: whole and stopped ends of carried-on moves, of stored starts too.
pub(super) fn ends(text: &mut Text) {
    ticks_turned_away(text);
    stops_about_the_last_pulse(text);
    of_a_stored_start(text);
}

/// Journal: ticks turned away by 2 and 3 before the carry-on, behind it, before its last tick and after that.
fn ticks_turned_away(text: &mut Text) {
    text.fast_list(
        0x00,
        0x00,
        "Entries of carried-on ends: ticks since the carry-on, without those turned away",
        &FIVE,
    );
    for stop_again in [false, true] {
        text.lines(&["Q080"]);
        text.read_runs(&[(150, 0), (5, 0x0100_0000), (150, 0)]);
        text.lines(&["Q09"]);
        text.read_runs(&[(150, 0), (3, 0xFFFF_FFFF), (50, 0), (7, 0x0100_0000)]);
        text.read_lines(&["Q0C"]);
        text.lent_tick(0, 0x77);
        text.read_runs(&[(3, 0x0100_0000), (100, 0)]);
        text.lent_tick(0x0100_0000, 0x00);
        if stop_again {
            text.lines(&["Q09"]);
            text.read_runs(&[(9, 0x0100_0000), (100, 0)]);
            text.read_lines(&["Q0C"]);
            text.read_runs(&[(100, 0), (9, 0x0100_0000)]);
        }
        text.read_after(106, 0);
        text.lent_tick(0, 0x77);
        text.readings();
        text.lent_tick(0, 0xFF);
        text.readings();
        text.lent_tick(0, 0x77);
        text.read_runs(&[(2, 0x0100_0000), (2, 0)]);
    }
    text.end();
}

/// Journal: cause 0 where m reached M, also when a stop had begun in the carry-on.
fn stops_about_the_last_pulse(text: &mut Text) {
    text.fast_list(0x0F, 0x0F, "Entries of carried-on ends: order 9 about the last pulse of a carried-on move", &FIVE);
    for before in [0, 1, 2, 109, 110, 111, 112, 205, 206, 207] {
        text.lines(&["Q080"]);
        text.ticks(300, 0);
        text.lines(&["Q09"]);
        text.ticks(200, 0);
        text.lines(&["Q0C"]);
        text.read_after(before, 0);
        text.read_lines(&["Q09"]);
        text.read_after(230, 0);
        text.heading("whole from 111 ticks on: 26; stopped short before it: carried on once more");
        text.read_lines(&["Q0C"]);
        text.read_after(206, 0);
        text.read_after(1, 0);
    }
    text.end();
}

/// Journal: a stored start's move, stopped and carried on; its entry counts the ticks since the carry-on alone.
fn of_a_stored_start(text: &mut Text) {
    text.fast_list(0x0D, 0x0D, "Entries of carried-on ends: the move of a stored start, stopped and carried on", &FIVE);
    text.lines(&["P0A00001"]);
    for before in [0, 1, 299] {
        text.lines_in_dwell(0, &["Q088"]);
        text.read_after_each(&[249, 1, before], 0);
        text.lines(&["Q09"]);
        text.read_after(before + 1, 0);
        text.lines(&["Q088", "Q0C"]);
        text.read_after_each(&[200, 280, 249, 1, 300], 0);
    }
    text.end();
}
