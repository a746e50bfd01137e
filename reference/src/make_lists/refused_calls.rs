//! Stored lists: received bytes and ticks that are turned away, by lent buffers (2) and by input words (3).

use super::list_lines::FAST;
use crate::line::LINE_END;
use crate::text::Text;

/// Turned away, 2: received bytes with buffers of several lengths.
pub(super) fn lent_buffers(text: &mut Text) {
    text.list(
        0x00,
        0x01,
        "Lent buffers: 0, 1 and 119 bytes are too few; the byte is not taken and the line stays half",
    );
    half_received_line(text);
    filled_buffers(text);
    half_received_order_9(text);
    text.end();
}

/// Turned away, 2: too short a buffer leaves a half-received line as it is.
fn half_received_line(text: &mut Text) {
    for lent in [0, 1, 119] {
        text.bytes(b"Q\r\xFF", lent);
    }
    text.readings();
    for (byte, lent) in [(b'Q', 120), (b'0', 119), (b'0', 121), (b'X', 0), (b'6', 255)] {
        text.byte(byte, lent);
    }
    text.byte(LINE_END, 0);
    text.byte(LINE_END, 119);
    text.readings();
    text.byte(LINE_END, 120);
    text.heading("the line is gone: 0D alone is a line without characters");
    for lent in [121, 1, 255] {
        text.byte(LINE_END, lent);
    }
}

/// Replies: the longest reply and shorter ones in buffers that it fills and in longer ones.
fn filled_buffers(text: &mut Text) {
    text.lines(&FAST);
    text.lines(&["P0000028", "P0180013", "P0200028", "W0F0F0F0", "Q080"]);
    text.read_after(400, 0x654321);
    text.heading("everything with identification fills 120 bytes; in longer buffers the rest is kept");
    for lent in [120, 121, 255] {
        text.bytes(b"q0800000C\rq08\rQ06\rq4800000C\rP0900001\r", lent);
    }
}

/// Turned away, 2: order 9 has no effect until its last byte is taken.
fn half_received_order_9(text: &mut Text) {
    text.heading("order 9 with 119 bytes does not stop; its last byte in 119 and then in 120 bytes does");
    text.bytes(b"Q09\r", 119);
    text.read_after(50, 0);
    text.bytes(b"Q09", 120);
    text.byte(LINE_END, 119);
    text.read_after(50, 0);
    text.byte(LINE_END, 120);
    text.read_after(50, 0);
    text.byte(LINE_END, 0);
    text.read_after(500, 0);
}

/// Turned away, 3: input words of 16,777,216 and more.
pub(super) fn large_words(text: &mut Text) {
    for switch in [0x00, 0x0A] {
        text.list(switch, switch + 1, "Over-large input words before, in and after a move, and in a dwell");
        large_words_at_rest(text);
        large_words_in_a_move(text);
        large_words_in_a_dwell(text);
        large_words_with_stop_causes(text);
        text.end();
    }
}

/// Turned away, 3: the last inputs stay those of the last tick that was taken.
fn large_words_at_rest(text: &mut Text) {
    text.ticks(1, 0x0100_0000);
    text.ticks(2, 0xFFFF_FFFF);
    text.read_lines(&["W0"]);
    text.ticks(1, 0x00FF_FFFF);
    text.read_lines(&["W0"]);
    text.ticks(1, 0x0112_3456);
    text.read_lines(&["W0", "P0C003FF", "W0FFFFFF", "P0A00001"]);
    text.ticks(1, 0x8000_0000);
}

/// Turned away, 3: the move waits.
fn large_words_in_a_move(text: &mut Text) {
    text.lines(&FAST);
    text.lines(&["P0000005", "P0180004", "Q080"]);
    text.read_runs(&[(5, 0x0100_0000), (100, 0), (300, 0xFFFF_FFFF), (100, 0)]);
    text.ticks(1, 0x0100_0001);
    text.read_after(400, 0);
}

/// Turned away, 3: the dwell waits.
fn large_words_in_a_dwell(text: &mut Text) {
    text.heading("in the dwell they do not count, and a stored start waits");
    text.lines_in_dwell(0, &["Q088"]);
    text.read_runs(&[(249, 0), (300, 0x0100_0000), (1, 0), (100, 0)]);
}

/// Turned away, 3: such a word is no input.
fn large_words_with_stop_causes(text: &mut Text) {
    text.heading("they hold no emergency, meet no sensor and no limit");
    text.lines(&["Q0E03003"]);
    text.read_runs(&[(2, 0x0100_3003), (1, 0xFFFF_FFFF), (1, 0), (1, 0x3003), (1, 0xFFFF_FFFF), (400, 0)]);
    text.lines(&["W0", "Q0B", "Q06"]);
}
