//! A dose on screen first: moves that are stopped and carried on (paper 02, 6/14), with trials between. Nothing of a
//! trial is done, so that it leaves a stopped move to be carried on and brings none back.

use super::session::Session;

/// A dose on screen first: carry-ons told in words, and trials before, between and behind them.
pub(super) fn carry_on(session: &mut Session) {
    nothing_left(session);
    between(session);
    dwells_and_stored_starts(session);
    by_inputs(session);
    several(session);
}

/// Turned away, 26: at rest after a whole dose, in words; a trial of a dose that its word stops brings nothing back.
fn nothing_left(session: &mut Session) {
    session.rest();
    session.each(&["Q0C", "Q0C00000A", "Q4C", "P0000005", "P0100002", "P0280003", "Q0C", "Q0E02000"]);
    session.trial_between_readings(0, 1_000, 0x2000);
    session.each(&["Q0C", "Q0E00000", "D 0 1000 000000", "Q0C"]);
    session.trial_and_dose(0, 1_000, 0);
    session.each(&["Q0C00000F"]);
}

/// A dose on screen first: the stopped dose stands at 4, 1 and 2. A trial begins anew and tells 5, 2 and 3; behind it
/// the carry-on goes on with the one pulse that is open.
fn between(session: &mut Session) {
    session.rest();
    session.each(&["P0000005", "P0100002", "P0280003", "Q080", "T 300 000000", "D 0 1000 000000", "Q09"]);
    session.each(&["D 0 1000 000000", "Q0C", "T 200 000000"]);
    session.trial_between_readings(0, 1_000, 0);
    session.each(&["D 0 1000001 000000", "D 5 0 000000", "D 1 10 000000", "D 0 0 FFFFFF", "Q0C123", "Q06"]);
    session.each(&["D 0 1000 000000", "Q0C", "T 206 000000", "q08", "D 0 1000 000000", "T 1 000000", "q08"]);
    session.each(&["D 0 1000 000000", "Q0C", "Q0B", "Q080", "Q09", "T 1 000000", "D 0 1000 000000", "Q0C00000B"]);
    session.each(&["T 480 000000", "q08", "Q0C", "Q080", "Q09", "T 1 000000", "P0000005", "D 0 1000 000000", "Q0C"]);
}

/// A dose on screen first: the carry-on ends the dwell and drops the stored start, the trial does neither.
fn dwells_and_stored_starts(session: &mut Session) {
    session.rest();
    session.each(&["P0000005", "P0100002", "P0280003", "P0A00001", "Q080", "T 300 000000", "Q09", "T 194 000000"]);
    session.each(&["Q06", "Q088", "D 0 1000 000000", "Q06", "T 100 000000", "D 0 1000 000000", "Q0C", "Q06"]);
    session.each(&["T 207 000000", "Q06", "D 0 1000 000000", "Q0C", "T 300 000000", "q08"]);
    session.each(&["Q080", "Q09", "T 1 000000", "Q089", "T 249 000000", "D 0 1000 000000", "T 1 000000", "Q06"]);
    session.each(&["D 0 1000 000000", "Q0C", "Q06", "T 1000 000000", "q08"]);
}

/// Turned away, 12, 13 and 16: the trial and the carry-on read the same inputs; the trial holds and stops nothing.
fn by_inputs(session: &mut Session) {
    for (setting, word) in [("Q0E02000", 0x2000), ("Q0E00001", 1), ("Q0E01000", 0x1000)] {
        session.rest();
        session.each(&["P00003E8", "P0180190", setting, "Q080", "T 500 000000"]);
        session.ticks(600, word);
        session.each(&["D 0 8000 000000", "Q0C", "Q0C00000C", "T 1 000000", "D 0 8000 000000", "Q0C", "Q0B"]);
        session.trial(0, 8_000, word);
        session.each(&["Q06", "Q0C", "T 700 000000"]);
        session.ticks(800, word);
        session.each(&["q08", "T 1 000000", "Q0B", "D 0 8000 000000", "Q0C", "T 8000 000000", "q08", "Q0C"]);
    }
}

/// Shares: a crooked dose stopped five times and carried on to its whole end, tried anew at every stop.
fn several(session: &mut Session) {
    session.rest();
    session.each(&["P00003E8", "P010014D", "P020029B", "P0300001", "P04803E7", "D 0 8000 000000", "Q080"]);
    for ticks in [777, 1_501, 1, 2_003, 155] {
        session.ticks(ticks, 0);
        session.each(&["Q09"]);
        session.ticks(ticks + 1, 0);
        session.trial_between_readings(0, 8_000, 0);
        session.each(&["Q0C"]);
    }
    session.each(&["T 8000 000000", "q08", "Q0C", "D 0 8000 000000"]);
    session.each(&["P0000001", "P0100000", "P0200000", "P0300000", "P0400000", "Q080", "T 206 000000", "Q09"]);
    session.each(&["T 1 000000", "Q06", "Q0C", "D 0 300 000000", "Q0C"]);
}
