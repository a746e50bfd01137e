//! Stored vectors, W: every command at the ends of its ranges, identifications, line buffers.

use crate::text::Text;

/// Lines: P 0-4 distance, P 8 speed, P 9 slope, P A dwell, P B watch, P C polarity, at the ends of their ranges.
pub(super) fn settings(text: &mut Text) {
    distances(text);
    text.heading("writer: speed, slope, dwell, watch, polarity");
    text.values(0x01, &[0, 1, 2, 10_000, 999_999, 1_000_000, 1_000_001, 0x000F_FFFF, 0x0010_0001, u32::MAX]);
    text.values(0x02, &[0, 1, 2, 16, 4_094, 4_095, 4_096, 0x0001_0001, 0x0010_0001, u32::MAX]);
    text.values(0x03, &[0, 1, 250, 16_382, 16_383, 16_384, 0x0010_0000, u32::MAX]);
    text.heading("writer: of the watch value the low 8 bits alone are used");
    text.values(0x04, &[0, 1, 2, 3, 4, 8, 0x80, 0xFF, 0x100, 0x103, 0x104, 0xFFFF_FF02, u32::MAX]);
    text.values(0x05, &[0, 1, 0x3FF, 0xABC, 4_094, 4_095, 4_096, 0x0010_0000, u32::MAX]);
}

/// Lines: P 0-4 distance.
fn distances(text: &mut Text) {
    text.heading("writer: distances, least and greatest and first without a line, minus zero");
    for axis in 0..5 {
        for flag in [0, 1] {
            for value in [0, 1, 5_000, 524_287, 524_288, 0x000F_FFFF, 0x0010_0000, 0x8000_0000, u32::MAX] {
                text.both_ways(0x00, axis, flag, value);
            }
        }
    }
    text.heading("writer: distances of axes that are not there");
    for axis in [5, 6, 8, 0x0F, 0x10, 0x80, 0xFF] {
        text.both_ways(0x00, axis, 0, 1);
        text.both_ways(0x00, axis, 1, 524_287);
    }
}

/// Lines: Q, q and W, at the ends of their ranges.
pub(super) fn orders_and_readings(text: &mut Text) {
    text.heading("writer: travel, position and starts of every axis, and of axes that are not there");
    for command in [0x06, 0x0E, 0x08] {
        for axis in [0, 1, 2, 3, 4, 5, 7, 8, 0x0C, 0x10, 0xFF] {
            for flag in [0, 1] {
                text.both_ways(command, axis, flag, 0);
            }
        }
    }
    text.heading("writer: status, stop, clear, reset, everything, query; axis, flag and value are not looked at");
    for command in [0x07, 0x09, 0x0A, 0x0B, 0x0F, 0x10] {
        text.both_ways(command, 0, 0, 0);
        text.both_ways(command, 0xFF, 1, u32::MAX);
    }
    text.heading("writer: what other commands do not look at");
    text.both_ways(0x01, 0xFF, 1, 1);
    text.both_ways(0x05, 0x05, 1, 0x123);
    text.both_ways(0x06, 0x04, 1, u32::MAX);
    text.both_ways(0x08, 0x03, 1, u32::MAX);
    text.both_ways(0x11, 0xFF, 1, 0x123456);
    on_settings(text);
    text.heading("writer: general outputs");
    text.values(0x11, &[0, 1, 0x00AB_CDEF, 0x00FF_FFFF, 0x0100_0000, 0x0100_0001, u32::MAX]);
}

/// Lines: Q D low-ON and Q E high-ON.
fn on_settings(text: &mut Text) {
    text.heading("writer: low-ON and high-ON, all bits that have a line, each bit alone");
    for command in [0x0C, 0x0D] {
        text.values(command, &[0, 0x33FF]);
        for bit in 0..32 {
            text.writer(0x0A, 0, (command, 0, 0, 1 << bit), "--");
        }
        text.values(command, &[u32::MAX]);
    }
}

/// Every command with a value that has a line: command, axis, flag, value.
pub(super) const COMMANDS: [(u8, u8, u8, u32); 19] = [
    (0x00, 2, 1, 5_000),
    (0x01, 0, 0, 1_000_000),
    (0x02, 0, 0, 4_095),
    (0x03, 0, 0, 16_383),
    (0x04, 0, 0, 3),
    (0x05, 0, 0, 0xFED),
    (0x06, 4, 0, 0),
    (0x07, 0, 0, 0),
    (0x08, 4, 1, 0),
    (0x09, 0, 0, 0),
    (0x0A, 0, 0, 0),
    (0x0B, 0, 0, 0),
    (0x0C, 0, 0, 0x33FF),
    (0x0D, 0, 0, 0x2155),
    (0x0E, 3, 0, 0),
    (0x0F, 0, 0, 0),
    (0x10, 0, 0, 0),
    (0x11, 0, 0, 0xABCDEF),
    (0x12, 0, 0, 0),
];

/// Lines: the identification.
pub(super) fn identifications(text: &mut Text) {
    text.heading("writer: each identification on some command");
    for (figures, character) in COMMANDS.into_iter().zip((0x30..=0x39).chain(0x41..=0x46)) {
        text.writer(0x0A, 0, figures, &format!("{character:02X}"));
        text.writer(0x0A, 1, (0x0B, 0, 0, 0), &format!("{character:02X}"));
    }
    text.heading("writer: every command with an identification, silent and not; the query has no line with one");
    for figures in COMMANDS {
        text.writer(0x0A, 0, figures, "41");
        text.writer(0x0C, 1, figures, "30");
    }
    text.heading("writer: characters that are no identification");
    let wrong = ["00", "0A", "0D", "20", "2F", "3A", "40", "47", "5A", "60", "67", "7A", "80", "B0", "E1", "FF"];
    for identification in wrong {
        text.writer(0x0A, 0, (0x09, 0, 0, 0), identification);
        text.writer(0x20, 1, (0x01, 0, 0, 1), identification);
        text.writer(0x0A, 0, (0x10, 0, 0, 0), identification);
    }
}

/// Paper 02, 6/14: Q C carry on, which looks at nothing but its identification.
pub(super) fn carry_ons(text: &mut Text) {
    text.heading("writer: carry on; axis, flag and value are not looked at");
    text.both_ways(0x12, 0, 0, 0);
    text.both_ways(0x12, 0xFF, 1, u32::MAX);
    for identification in ["30", "39", "41", "46", "2F", "3A", "40", "47", "61", "66", "60", "67", "0D", "FF"] {
        text.writer(0x0A, 0, (0x12, 0, 0, 0), identification);
        text.writer(0x40, 1, (0x12, 5, 1, 7), identification);
    }
    for length in [0x00, 0x01, 0x08, 0x09, 0x0A, 0x0B, 0x40] {
        text.writer(length, 0, (0x12, 0, 0, 0), "--");
        text.writer(length, 1, (0x12, 0, 0, 0), "43");
        text.writer(length, 0, (0x12, 0, 0, 0), "63");
        text.writer(length, 0, (0x12, 0, 0, 0), "67");
    }
}

/// Turned away, 18 and 19: lengths of the line buffer.
pub(super) fn line_buffers(text: &mut Text) {
    text.heading("writer: line buffers of every length for a line of ten bytes, of nine and of three");
    for length in 0..=0x40 {
        text.writer(length, 0, (0x00, 1, 1, 524_287), "46");
    }
    for length in [0x00, 0x01, 0x02, 0x03, 0x04, 0x08, 0x09, 0x0A, 0x0B, 0x10, 0x20, 0x3F, 0x40] {
        text.writer(length, 0, (0x09, 0, 0, 0), "--");
        text.writer(length, 1, (0x10, 0, 0, 0), "--");
    }
    text.heading("writer: 18 comes before 19; a value without a line leaves the buffer");
    for length in [0x00, 0x09, 0x0A, 0x0B, 0x20, 0x40] {
        text.writer(length, 0, (0x00, 5, 0, 1), "--");
        text.writer(length, 0, (0x01, 0, 0, 0), "--");
        text.writer(length, 1, (0x09, 0, 0, 0), "67");
        text.writer(length, 0, (0x10, 0, 0, 0), "30");
    }
}
