//! A dose on screen first: trials in a dwell and with a stored start. The trial ends the one and drops the other, and
//! both go on behind it.

use super::session::Session;

/// A dose on screen first: a dwell of 2 ms runs for 500 ticks behind the end, tried or not.
pub(super) fn dwells(session: &mut Session) {
    session.rest();
    session.each(&["P0000001", "P0A00002", "D 0 300 000000", "Q080", "T 207 000000"]);
    session.trial_between_readings(0, 300, 0);
    session.each(&["T 499 000000", "D 0 300 000000", "Q06", "T 1 000000", "Q06", "D 0 206 000000"]);
    session.trial_and_dose(0, 300, 0);
    session.trial_and_dose(0, 300, 0);
}

/// Turned away: a stored start that will fail, by its master, its sensor or its distance.
fn stored_starts_that_fail(session: &mut Session) {
    for (stored, lines) in [("Q08B", &["P0300000"][..]), ("Q088", &["Q0E02000"]), ("Q088", &["P0000000", "P0100000"])] {
        session.rest();
        session.each(&["P0000002", "P0100001", "P0A00001", "Q080", "T 400 000000", stored]);
        session.each(lines);
        session.trial_between_readings(0, 400, 0x2000);
        session.ticks(400, 0x2000);
        session.each(&["q08", "T 1 000000", "D 0 400 000000"]);
    }
}

/// A dose on screen first: a stored start that begins behind the trial, with the distances set then; one that order 9
/// drops; and those that fail.
pub(super) fn stored_starts(session: &mut Session) {
    session.rest();
    session.each(&["P0000003", "P0A00002", "Q080", "T 420 000000", "Q088"]);
    session.trial_between_readings(0, 1_000, 0);
    session.each(&["P0180002", "D 0 1000 000000", "D 1 1000 000000", "T 480 000000", "D 0 1000 000000", "q08"]);
    session.each(&["T 480 000000", "q08", "Q088", "D 0 0 000000", "Q09", "D 0 1000 000000", "T 600 000000", "q08"]);
    session.each(&["Q080", "T 500 000000", "Q088", "D 0 500 000000", "Q080", "D 0 500 000000", "T 500 000000", "q08"]);
    stored_starts_that_fail(session);
}
