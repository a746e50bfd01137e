//! A dose on screen first: doses that end and that do not, of each master, and their shares.

use super::session::Session;

/// A dose on screen first: no tick, one, those about the end, and the most. A dose of one pulse ends in tick 207.
pub(super) fn counts_of_ticks(session: &mut Session) {
    session.rest();
    session.each(&["P0080001"]);
    for ticks in [0, 1, 2, 155, 156, 205, 206, 207, 208, 999_999, 1_000_000, 1_000_001] {
        session.trial(0, ticks, 0);
    }
    session.trial_between_readings(0, 206, 0);
    session.trial_and_dose(0, 206, 0);
    session.trial(0, 1, 0);
    session.ticks(1, 0);
    session.trial_between_readings(0, 207, 0);
    session.trial_and_dose(0, 207, 0);
}

/// A dose on screen first: five wines in both directions, each axis as the master. The dose ends in tick 6,865; the
/// ticks of its trials lie before the end, about it and behind it.
pub(super) fn each_master(session: &mut Session) {
    for (master, ticks) in (0..5).zip([2_000, 6_864, 6_865, 6_866, 9_000]) {
        session.rest();
        for axis in 0..5 {
            let distance = if axis == master { 977 } else { 61 + 199 * axis };
            let minus = if (axis + master) % 2 == 1 { 0x80000 } else { 0 };
            session.each(&[&format!("P0{axis}{:05X}", distance | minus)]);
        }
        session.trial((master + 1) % 5, 9_000, 0);
        session.trial_between_readings(master, 9_000, 0xAB_CDEF);
        session.trial_and_dose(master, ticks, 0);
    }
}

/// A dose on screen first: shares without what is left over: all of one wine, three alike, one pulse of 10,000 and of
/// 10,001, and the longest doses.
pub(super) fn shares(session: &mut Session) {
    session.rest();
    session.each(&["P047FFFF", "D 4 536000 000000", "D 4 1000000 000000"]);
    session.rest();
    session.each(&["P0100007", "P0280007", "P0300007", "D 1 900 000000", "D 2 900 000000", "D 3 100 000000"]);
    session.rest();
    session.each(&["P000270F", "P0280001", "D 0 30000 000000", "P0002710", "D 0 30000 000000"]);
    session.each(&["P007FFFF", "P01186A0", "P02986A0", "P037FFFE", "P0480001", "D 0 300000 000000"]);
    session.each(&["D 0 1000000 000000"]);
}

/// A dose on screen first: slow speeds and slopes, and a speed set between two tries; the start takes the latest.
pub(super) fn slow_doses(session: &mut Session) {
    session.rest();
    session.each(&["P0000019", "P0180007", "P0802710", "P0900010", "D 0 2499 000000", "D 0 2500 000000"]);
    session.each(&["D 0 12000 000000", "D 0 1000000 000000", "P0900001", "D 0 20000 000000", "P0800FA0"]);
    session.each(&["D 0 20000 000000", "P08F4240", "D 0 20000 000000", "P0900FFF", "P0800064"]);
    session.trial_and_dose(0, 25_000, 0);
    session.each(&["P08F4240", "D 0 100 000000", "T 3000 000000", "q08"]);
}
