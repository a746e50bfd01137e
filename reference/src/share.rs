//! Shares (6.3).

/// Shares: an axis's travel is the whole part of m × d / M; 0 where M is 0.
pub fn share(m: u32, d: u32, master_distance: u32) -> u32 {
    if master_distance == 0 {
        return 0;
    }
    (m as u64 * d as u64 / master_distance as u64) as u32
}

/// Shares: the travels of all axes after the master's travel has become m.
pub fn shares(m: u32, distances: [u32; 5], master_distance: u32) -> [u32; 5] {
    let mut travels = [0; 5];
    for axis in 0..5 {
        travels[axis] = share(m, distances[axis], master_distance);
    }
    travels
}
