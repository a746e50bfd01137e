//! Paper 02, 4/14: the stored lists of the largest sums, their moves, and sums worked out from m, d and M alone.

use super::followed::Move;
use super::stored_lists::{followed, stored_lists};
use reference::lists::List;
use reference::Entry;
use std::sync::OnceLock;

/// Shares: the longest distance.
pub const MOST: u64 = 524_287;

/// The stored lists of the largest sums.
pub fn lists() -> Vec<List> {
    let mut lists = stored_lists();
    lists.retain(|(words, _)| words.starts_with("Largest sums"));
    lists.into_iter().map(|(_, list)| list).collect()
}

/// The moves that end in them, with their entries; the lists are played once.
pub fn moves() -> &'static [(Move, Entry)] {
    static MOVES: OnceLock<Vec<(Move, Entry)>> = OnceLock::new();
    MOVES.get_or_init(|| lists().iter().flat_map(|list| followed(list).ended).collect())
}

/// The remainder that an axis has while the master's travel is m.
pub fn remainder(m: u64, d: u64, master_distance: u64) -> u64 {
    m * d % master_distance
}

/// What remainder and distance make together at the master pulse after travel m.
pub fn sum(m: u64, d: u64, master_distance: u64) -> u64 {
    remainder(m, d, master_distance) + d
}

/// The travel of an axis after the master's travel has become m.
pub fn whole_part(m: u64, d: u64, master_distance: u64) -> u64 {
    (m as u128 * d as u128 / master_distance as u128) as u64
}
