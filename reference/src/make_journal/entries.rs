//! Stored vectors of the journal: entries that many lines share.

use crate::command::LONGEST;
use crate::journal::{spelling, Entry, COMPLETE, STOPPED, TICKS};

/// Journal: the longest travel.
pub(super) const LONGEST_TRAVEL: i32 = LONGEST as i32;

/// Journal: the shortest entry, seven bytes: stopped in its first tick.
pub(super) const SHORTEST: Entry = Entry { ticks: 1, cause: STOPPED, travels: [0; 5] };

/// Journal: the entry of the session printed in paper 01, eight bytes.
pub(super) const PRINTED: Entry = Entry { ticks: 207, cause: COMPLETE, travels: [1, -1, 0, 0, 0] };

/// Journal: a longest entry, 23 bytes.
pub(super) const LONGEST_ENTRY: Entry = Entry {
    ticks: *TICKS.end(),
    cause: COMPLETE,
    travels: [LONGEST_TRAVEL, -LONGEST_TRAVEL, LONGEST_TRAVEL, -LONGEST_TRAVEL, 8_192],
};

/// Journal: the entries one after the other; all of them are in range.
pub(super) fn spelled(entries: &[Entry]) -> Vec<u8> {
    entries.iter().flat_map(|entry| spelling(entry).unwrap()).collect()
}
