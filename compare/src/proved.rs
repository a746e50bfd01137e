//! The proved controller through the replay library: a whole list in one call.

extern "C" {
    fn temixohuel_replay(switch: u8, calls: *const u8, length: usize) -> u32;
}

/// The digest of all answers of the proved controller to a list of calls.
pub fn replay(switch: u8, calls: &[u8]) -> u32 {
    // The function takes every switch and every list; a Rattle `&[u8]` is a pointer and a length.
    unsafe { temixohuel_replay(switch, calls.as_ptr(), calls.len()) }
}
