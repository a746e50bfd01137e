//! A dose on screen first: the page's own dose, and the session that paper 01 prints, each with its start tried first.

use super::session::Session;

/// A dose on screen first: the lines of the words of docs/trial.txt.
const DOSE: [&str; 9] = [
    "P08F4240",
    "P0900FFF",
    "P0001388",
    "P01006F1",
    "P0280B57",
    "D 0 1000000 000000",
    "D 1 1000000 000000",
    "D 0 1000 000000",
    "Q0600000",
];

/// A dose on screen first: a trial as power-on and `P0B0` leave the controller, then the page's dose, about its end.
pub(super) fn examples(session: &mut Session) {
    session.trial_between_readings(0, 0, 0);
    session.each(&DOSE);
    session.each(&["D 0 6000 000000", "D 0 6000 002000", "D 5 1000001 1000000", "D 5 1000001 000000", "D 5 0 000000"]);
    for ticks in [15_496, 15_498] {
        session.trial(0, ticks, 0);
    }
    session.trial_and_dose(0, 15_497, 0);
}

/// Host end and program: the printed input, its start tried before it.
pub(super) fn printed_session(session: &mut Session) {
    session.rest();
    session.each(&["P0000001", "P0180001", "P08F4240", "P0900FFF", "D 0 1000 000000"]);
    session.each(&["Q080", "T 1000 000000", "q01", "Q06"]);
}
