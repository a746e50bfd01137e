//! Stored lists and vectors: the digest.

/// Stored lists: three numbers are mixed into the digest, modulo 2 to the 32.
pub fn mix(digest: u32, x: u32, y: u32, z: u32) -> u32 {
    digest
        .wrapping_mul(2_147_483_629)
        .wrapping_add(x.wrapping_mul(1_073_741_789))
        .wrapping_add(y.wrapping_mul(536_870_909))
        .wrapping_add(z.wrapping_mul(268_435_399))
}
