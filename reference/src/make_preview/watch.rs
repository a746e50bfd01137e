//! A dose on screen first: the watch. The program turns it off; a P B line sets it again.

use super::session::Session;

/// A dose on screen first: the start sets the watch count to 0, so that a count that is nearly full or full stops
/// nothing of a short dose.
pub(super) fn zeroed_by_the_start(session: &mut Session) {
    session.rest();
    session.each(&["P0000001", "P0B1", "T 999990 000000", "D 0 1000 000000", "D 0 17 000000", "D 0 18 000000"]);
    session.each(&["T 9 000000", "D 0 1000 000000", "T 1 000000", "D 0 1000 000000"]);
    session.trial_and_dose(0, 1_000, 0);
}

/// A dose on screen first: nothing of a trial is done, so the count goes on from where it was: one that 11 or 10 turns
/// away lets the next tick stop the move, and one in a dwell lets a stored start begin under a full count.
pub(super) fn not_zeroed_by_the_trial(session: &mut Session) {
    session.rest();
    session.each(&["P0000002", "P0800001", "P0B1", "Q080", "T 999999 000000", "D 0 10 000000", "D 5 10 000000"]);
    session.each(&["T 1 000000", "q08", "D 0 1000 000000"]);
    session.rest();
    session.each(&["P0000001", "P0A01388", "P0B1", "Q080", "T 300 000000", "Q088", "T 600000 000000"]);
    session.each(&["D 0 300 000000", "T 649906 000000", "D 0 300 000000", "T 1 000000", "q08"]);
}

/// Stops: a slow dose of one pulse. With watch bit 0 the tick 1,000,000 stops it, without it that tick has its pulse.
/// A fast dose only begins its stop there; at this speed the fall of that tick is just enough to cost it a pulse.
pub(super) fn acting_in_the_trial(session: &mut Session) {
    session.rest();
    session.each(&["P0000001", "P0180001", "P0800001"]);
    for watch in 0..4 {
        session.each(&[&format!("P0B{watch}")]);
        session.trial(0, 1_000_000, 0);
    }
    session.each(&["D 0 999999 000000", "P0000002", "D 0 1000000 000000", "P0B0", "D 0 1000000 000000"]);
    session.each(&["P007FFFF", "P0848C10", "P0B1", "D 0 1000000 000000", "P0B0", "D 0 1000000 000000"]);
}
