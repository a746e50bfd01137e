//! A dose on screen first: drawn sessions of lines, ticks and trials in any order.

use super::session::Session;
use crate::host::pick_master;
use crate::make_lists::drawn::{drawn_line, drawn_word, Draw};

/// Shares: five drawn distances, short ones often, so that doses end within the ticks.
fn drawn_distances(draw: &mut Draw) -> [u32; 5] {
    let most = [4, 30, 300, 1_500][draw.below(4) as usize];
    [0; 5].map(|_| if draw.below(3) == 0 { 0 } else { draw.below(most) })
}

/// Shares: the lines of five distances, in drawn directions; under way they are turned away unseen.
fn set_distances(session: &mut Session, draw: &mut Draw, distances: [u32; 5]) {
    for (axis, distance) in distances.into_iter().enumerate() {
        session.each(&[&format!("P4{axis}{:05X}", (0x80000 * draw.below(2)) | distance)]);
    }
}

/// A dose on screen first: a drawn trial, most often with the longest axis as its master; now and then 3, 25 or 10.
fn drawn_trial(session: &mut Session, draw: &mut Draw, longest: u32) {
    let master = if draw.below(6) == 0 { draw.below(7) } else { longest };
    let ticks = match draw.below(16) {
        0 => draw.below(4),
        1 => 999_990 + draw.below(20),
        2..=7 => draw.below(1_500),
        _ => draw.below(16_000),
    };
    session.trial(master, ticks, drawn_word(draw));
}

/// Stops: a drawn setting of inputs, or none.
fn drawn_setting(session: &mut Session, draw: &mut Draw) {
    if draw.below(3) == 0 {
        session
            .each(&[draw.one(&["Q0E02000", "Q0E01000", "Q0E03001", "Q0E0000A", "Q0E00155", "Q0D0000A", "Q0D00200"])]);
    }
}

/// Stops: no input acts, and the emergency is not held.
fn freed(session: &mut Session) {
    session.each(&["Q0D00000", "Q0E00000", "T 1 000000", "Q0B"]);
}

/// A dose on screen first: distances and a few lines, a trial, a start or none, some ticks, and a trial.
fn drawn_round(session: &mut Session, draw: &mut Draw) {
    let distances = drawn_distances(draw);
    let longest = u32::from(pick_master(distances));
    set_distances(session, draw, distances);
    drawn_setting(session, draw);
    for _ in 0..draw.below(3) {
        session.each(&[&drawn_line(draw)]);
    }
    drawn_trial(session, draw, longest);
    match draw.below(4) {
        0 => session.each(&[&format!("Q08{longest}")]),
        1 => session.each(&[&format!("Q08{:X}", 8 + longest)]),
        _ => {}
    }
    session.ticks(1 + draw.below(4_000), drawn_word(draw) & 0xFF_FFFF);
    drawn_trial(session, draw, longest);
    match draw.below(4) {
        0 => freed(session),
        1 => session.each(&["q08"]),
        _ => {}
    }
}

/// A dose on screen first: drawn sessions, each from rest.
pub(super) fn drawn_sessions(session: &mut Session) {
    for number in 1..=10u32 {
        let mut draw = Draw(number * 15_485_863);
        session.rest();
        for _ in 0..12 {
            drawn_round(session, &mut draw);
        }
    }
}
