//! A dose on screen first: the order in which numbers are met: 3, 25, 10, then 11 to 17 of the start.

use super::session::Session;

/// Paper 02, 5/14: each of 3, 25 and 10 with and without the others.
fn combinations(session: &mut Session) {
    for word in [0xFF_FFFF, 0x100_0000] {
        for ticks in [1_000_000, 1_000_001] {
            for master in [0, 4, 5] {
                session.trial(master, ticks, word);
            }
        }
    }
    session.trial(9, 2_000_000, 0x100_0000);
}

/// Paper 02, 5/14: the numbers before the start's own; without any of them 15 at rest and 11 under way.
pub(super) fn before_the_start(session: &mut Session) {
    session.rest();
    combinations(session);
    session.each(&["P00003E8", "Q080", "T 400 000000"]);
    combinations(session);
}

/// From words: numbers over 4,294,967,295, and those that 8, 32 or 64 bits take for smaller ones.
pub(super) fn large_numbers(session: &mut Session) {
    session.rest();
    session.each(&["P0000001"]);
    for master in ["255", "256", "4294967295", "4294967296", "18446744073709551616"] {
        session.each(&[&format!("D {master} 300 000000")]);
    }
    for ticks in ["4294967295", "4294967296", "4294967596", "18446744073709551916"] {
        session.each(&[&format!("D 0 {ticks} 000000")]);
    }
    for word in ["1000001", "FFFFFFFF", "100000000", "100000001", "10000000000000000"] {
        session.each(&[&format!("D 0 300 {word}")]);
    }
}

/// Turned away: all causes of 11 to 16 at once, taken away one by one; the numbers are those of a start line, and no
/// bit 2 is set by a trial.
pub(super) fn of_the_start(session: &mut Session) {
    session.rest();
    session.each(&["P0000005", "P0100002", "Q080", "T 100 000000", "Q0E03001", "T 1 003001", "D 1 10 000000"]);
    session.each(&["T 500 003001", "Q06", "D 1 10 000000", "D 0 10 000000", "Q081", "Q06"]);
    session.each(&["T 1 002001", "D 1 10 000000", "Q0B", "Q06", "D 1 10 000000", "D 0 10 000000", "Q081"]);
    session.each(&["T 1 000001", "Q06", "D 1 10 000000", "D 4 10 000000", "Q06", "D 0 10 000000"]);
    session.each(&["Q081", "Q06", "D 1 10 000000", "Q0A", "Q06", "D 1 10 000000", "Q06"]);
    session.each(&["P0000000", "D 0 10 000000", "D 1 10 000000", "P0100000", "D 0 10 000000", "D 4 10 000000"]);
    session.each(&["P0180001", "D 1 300 000000", "P0080001", "D 0 300 000000", "P0000001", "D 0 300 000000"]);
    session.each(&["T 1 000000", "D 0 300 000000", "D 0 300 000001"]);
}

/// Turned away, 17: final positions at both ends of their range and one pulse beyond; 16 goes before it.
pub(super) fn last_positions(session: &mut Session) {
    session.rest();
    session.each(&["P007FFFF", "D 0 1 000000", "P00FFFFF", "D 0 1 000000", "P0080001"]);
    session.trial_and_dose(0, 300, 0);
    session.each(&["P00FFFFF", "D 0 1 000000", "P0080001", "Q080", "T 300 000000", "q00"]);
    session.each(&["P00FFFFF", "D 0 1 000000", "P00FFFFE", "D 0 1 000000", "P007FFFF", "D 0 1 000000"]);
    session.each(&["Q0B", "P0300001", "P0000001", "Q080", "T 300 000000", "P007FFFF", "P0300000", "D 0 1 000000"]);
    session.each(&["Q0E00001", "T 1 000001", "D 0 1 000000", "T 1 000000", "D 0 1 000000", "P007FFFE"]);
    session.each(&["D 0 1 000000", "P0000005", "P037FFFF", "D 3 1 000000", "D 0 1 000000", "Q0B", "D 3 1 000000"]);
}
