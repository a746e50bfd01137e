//! A dose on screen first: trials while a move runs (11), while it stops, and after a stop.

use super::session::Session;

/// Turned away, 11: a move under way and one that stops; it goes on as if nothing had been tried.
pub(super) fn under_way(session: &mut Session) {
    session.rest();
    session.each(&["P00003E8", "P0180190", "D 0 7000 000000", "Q080", "D 0 0 000000", "T 500 000000"]);
    session.trial_between_readings(0, 1_000, 0);
    session.each(&["D 1 1000 000000", "D 4 0 FFFFFF", "D 5 0 000000", "P0807A12", "D 0 1 000000", "Q06"]);
    session.each(&["T 6400 000000", "q08", "D 0 7000 000000", "P08F4240", "D 0 7000 000000"]);
}

/// A dose on screen first: after a stop by order the travels of the stopped move stay, and so does status bit 3; the
/// trial begins anew, at the position that the stop left.
pub(super) fn after_a_stop(session: &mut Session) {
    session.rest();
    session.each(&["P00003E8", "P0180190", "Q080", "T 3000 000000", "Q09", "D 0 100 000000", "T 10 000000"]);
    session.each(&["D 0 100 000000", "T 3200 000000"]);
    session.trial_between_readings(0, 7_000, 0);
    session.each(&["P0100000", "P0300321"]);
    session.trial_between_readings(0, 3_000, 0);
    session.trial_and_dose(0, 7_000, 0);
    session.each(&["Q0B"]);
    session.trial_between_readings(0, 6_999, 0);
    session.each(&["Q0E02000", "Q080", "T 400 000000", "T 1000 002000", "T 1 000000"]);
    session.trial_between_readings(0, 7_000, 0);
}
