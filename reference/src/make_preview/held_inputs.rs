//! A dose on screen first: the start reads the inputs of the last tick before, the ticks read the word of the D line.

use super::session::Session;

/// Stops: the sensor, active while high and while low.
pub(super) fn sensor(session: &mut Session) {
    session.rest();
    session.each(&["P0000001", "Q0E02000", "D 0 1000 002000", "D 0 0 002000", "Q06", "T 1 002000"]);
    session.each(&["D 0 1000 002000", "D 0 1000 000000", "D 0 0 000000", "T 1 FFDFFF"]);
    session.trial_between_readings(0, 1_000, 0xFF_FFFF);
    session.trial_and_dose(0, 1_000, 0xFF_FFFF);
    session.rest();
    session.each(&["P0000001", "Q0D02000", "D 0 1000 002000", "D 0 1000 000000", "T 1 002000", "D 0 1000 000000"]);
    session.trial_and_dose(0, 1_000, 0x2000);
    session.trial_and_dose(0, 1_000, 0);
}

/// Stops: the emergency input. A tick holds it, not a line: with low-ON and the word 0 the start is accepted, and the
/// first tick stops it. The trial's tick holds nothing behind it.
pub(super) fn emergency(session: &mut Session) {
    session.rest();
    session.each(&["P0000001", "Q0E01000"]);
    session.trial_between_readings(0, 1_000, 0x1000);
    session.each(&["T 1 001000", "Q06", "D 0 1000 000000", "T 1 000000", "D 0 1000 000000", "Q0B", "D 0 1000 000000"]);
    session.trial_and_dose(0, 1_000, 0x1000);
    session.each(&["D 0 1000 000000", "Q0E00000", "Q0B", "Q0D01000", "D 0 1000 000000", "D 0 1000 001000", "Q06"]);
    session.trial_and_dose(0, 1_000, 0);
    session.each(&["D 0 1000 001000", "T 1 001000", "Q0B", "D 0 1000 001000"]);
}

/// Stops: the settings that block plus and minus of an axis: low-ON 2k+1 and 2k, high-ON 2k and 2k+1.
fn blocking_bits(axis: u32, minus: bool) -> (u32, u32) {
    let (even, odd) = (1 << (2 * axis), 2 << (2 * axis));
    if minus {
        (even, odd)
    } else {
        (odd, even)
    }
}

/// Stops: one limit of an axis, in the held word and in the last one before; the other limits let it go.
fn limits_of(session: &mut Session, axis: u32, minus: bool) {
    let (low, high) = blocking_bits(axis, minus);
    let distance = if minus { 0x80002 } else { 2 };
    session.each(&[&format!("P0{axis}{distance:05X}"), &format!("Q0E{high:05X}")]);
    session.trial(axis, 400, high);
    session.trial(axis, 400, 0xFF_FFFF ^ high);
    session.ticks(1, high);
    session.trial(axis, 400, 0);
    session.each(&["Q0E00000", &format!("Q0D{low:05X}")]);
    session.trial(axis, 400, 0xFF_FFFF);
    session.ticks(1, low);
    session.trial(axis, 400, 0);
    session.trial(axis, 400, low);
    session.each(&[&format!("Q0D{:05X}", 0x3FF ^ low), &format!("Q0E{:05X}", 0x3FF ^ high)]);
    session.trial(axis, 400, low);
    session.each(&["Q0D00000", "Q0E00000", &format!("P0{axis}00000"), "T 1 000000"]);
}

/// Stops: each limit of each axis, which moves alone; then an axis of distance 0, which is never blocked.
pub(super) fn limits(session: &mut Session) {
    session.rest();
    for axis in 0..5 {
        limits_of(session, axis, false);
        limits_of(session, axis, true);
    }
    session.each(&["P0000002", "Q0E003FC", "T 1 0003FC", "D 0 400 0003FC", "P0100001", "D 0 400 0003FC"]);
    session.each(&["T 1 000000", "D 0 400 0003FC", "D 0 400 000008", "D 0 400 000004"]);
}
