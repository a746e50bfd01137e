//! Stored inputs: the entries that the stored lists reach, each followed from the answers of its ticks.

mod common;
use common::followed::Move;
use common::stored_lists::{followed, stored_lists};
use reference::Entry;

/// The moves that end in the stored lists, each list for its first switch.
fn stored_moves() -> Vec<(Move, Entry)> {
    stored_lists().iter().flat_map(|(_, list)| followed(list).ended).collect()
}

/// How many moves of the stored lists have this of them.
fn count(moves: &[(Move, Entry)], has: impl Fn(&Move, &Entry) -> bool) -> usize {
    moves.iter().filter(|(ended, entry)| has(ended, entry)).count()
}

#[test]
fn stored_lists_reach_every_kind_of_entry() {
    let moves = stored_moves();
    let still = |entry: &Entry| entry.travels == [0; 5];
    assert!(count(&moves, |ended, entry| entry.cause == 0 && !ended.stop_begun) > 100);
    assert!(count(&moves, |ended, entry| entry.cause == 0 && ended.stop_begun) > 5);
    assert!(count(&moves, |_, entry| entry.cause == 1 && still(entry)) > 20);
    assert!(count(&moves, |_, entry| entry.cause == 1 && !still(entry)) > 20);
    assert!(count(&moves, |ended, entry| ended.stored && entry.cause == 0) > 10);
    assert!(count(&moves, |ended, entry| ended.stored && entry.cause == 1) > 1);
    assert!(count(&moves, |ended, entry| ended.stored && entry.ticks == 1) > 0);
    assert!(count(&moves, |ended, entry| ended.refused_ticks > 0 && entry.cause == 0) > 3);
    assert!(count(&moves, |ended, entry| ended.refused_ticks > 0 && entry.cause == 1) > 1);
    assert!(count(&moves, |ended, _| ended.refused_ticks > 0 && ended.stored) > 0);
    // No move ends by itself short of M.
    assert_eq!(count(&moves, |ended, entry| entry.cause == 1 && !ended.stop_begun), 0);
}

#[test]
fn stored_lists_reach_numbers_of_one_to_three_groups() {
    let moves = stored_moves();
    for (least, end) in [(1, 128), (128, 16_384), (16_384, 2_097_152)] {
        assert!(count(&moves, |_, entry| (least..end).contains(&entry.ticks)) > 0);
    }
    for (least, end) in [(1, 64), (64, 8_192), (8_192, 524_288)] {
        let reaches =
            |sign: i32| count(&moves, |_, entry| entry.travels.iter().any(|t| (least..end).contains(&(sign * t))));
        assert!(reaches(1) > 0 && reaches(-1) > 0);
    }
}
