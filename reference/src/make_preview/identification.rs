//! A dose on screen first: identifications of either case (paper 02, 7/14), which the program tells as they stand.

use super::session::Session;
use crate::text::{IDENTIFICATIONS, NEXT_TO_THEM};

/// A dose on screen first: replies of every form in words, blocks of W lines among trials, and lines turned away.
pub(super) fn identification(session: &mut Session) {
    every_form(session);
    settled(session);
    turned_away(session);
}

/// Replies: lines of each form in turn, with the next identification each; one everything of each case.
fn every_form(session: &mut Session) {
    session.rest();
    let lines = ["P0000005", "Q0000000", "Q06abcde", "q0012345", "Q0Afffff", "Q0B1fa00", "Q0D00000", "P08f4240"];
    for (line, id) in lines.iter().cycle().zip(IDENTIFICATIONS.chars()) {
        session.each(&[&format!("{line}{id}")]);
    }
    session.each(&["q0800000C", "q0800000c", "Q0800000d", "D 0 1000 000000", "T 100 000000", "Q0900000e"]);
    session.each(&["T 200 000000", "D 0 1000 000000", "Q0C00000f", "T 1000 000000", "Q0C00000a", "P4000003b", "q00"]);
    session.each(&["D 0 1000 000000"]);
}

/// Paper 02, 3/14: the block of a W line has the very character; a trial between takes nothing of it.
fn settled(session: &mut Session) {
    for id in IDENTIFICATIONS.chars() {
        session.each(&[&format!("W0abcdef{id}")]);
        session.ticks(2_499, 1);
        session.ticks(1, 0xAB_CDEF);
    }
    session.each(&["W0123456a", "T 2499 000001", "W0123456A", "T 1250 000002", "W0123456a", "T 2499 000003"]);
    session.each(&["D 0 3000 000000", "T 1 000004", "W0123456B", "W4123456b", "T 2501 000005"]);
}

/// Turned away: 4 to 7 without an identification, the characters next to them, and 8 to 15 with a small one.
fn turned_away(session: &mut Session) {
    session.each(&["P0000001aa", "X0000001a", "P1000001a", "P00000g1a", "P0500001a", "P0800000b", "Q0810000c"]);
    for next in NEXT_TO_THEM.chars() {
        session.each(&[&format!("P0000001{next}"), &format!("W0000000{next}")]);
    }
    session.each(&["D 0 1000 000000", "P0000000d", "Q0800000e", "Q0600000f", "Q0A00000A", "Q0600000a"]);
}
