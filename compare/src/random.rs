//! Random numbers from a seed alone (splitmix64), so that every run can be had again.

/// The place of each part of a run in the random numbers of a seed. `CALLS` and `VECTORS` have the same one: nothing
/// else is common to them, and a seed is to give the run that it always gave.
pub mod part {
    pub const SESSION: u64 = 1;
    /// The switch and the ticks of a list.
    pub const LIST: u64 = 2;
    /// The calls of a list.
    pub const CALLS: u64 = 3;
    pub const VECTORS: u64 = 3;
    pub const TIMED_BYTES: u64 = 4;
    pub const WORDS: u64 = 5;
    /// The trials of a list: they have random numbers of their own, so that the calls between them stay what they were
    /// until one is done for real.
    pub const TRIALS: u64 = 6;
    pub const PREVIEW: u64 = 7;
    /// The D lines of a preview.
    pub const SCREENS: u64 = 8;
}

/// A sequence of random numbers.
#[derive(Clone, Debug)]
pub struct Random(u64);

/// The finishing step of splitmix64.
fn scramble(mut z: u64) -> u64 {
    z = (z ^ (z >> 30)).wrapping_mul(0xBF58_476D_1CE4_E5B9);
    z = (z ^ (z >> 27)).wrapping_mul(0x94D0_49BB_1331_11EB);
    z ^ (z >> 31)
}

impl Random {
    /// The sequence of one item: each seed, part and index has its own.
    pub fn of_item(seed: u64, part: u64, index: u64) -> Random {
        Random(scramble(scramble(scramble(seed).wrapping_add(part)).wrapping_add(index)))
    }

    /// Any 64 bits.
    pub fn bits(&mut self) -> u64 {
        self.0 = self.0.wrapping_add(0x9E37_79B9_7F4A_7C15);
        scramble(self.0)
    }

    /// 0 to `end` - 1.
    pub fn below(&mut self, end: u32) -> u32 {
        (((self.bits() >> 32) * end as u64) >> 32) as u32
    }

    /// `low` to `high`, both included.
    pub fn between(&mut self, low: u32, high: u32) -> u32 {
        low + self.below(high - low + 1)
    }

    /// True in `percent` of 100 cases.
    pub fn chance(&mut self, percent: u32) -> bool {
        self.below(100) < percent
    }

    /// 1 to `most`, where numbers of every length in bits are alike likely.
    pub fn spread(&mut self, most: u32) -> u32 {
        let low = 1 << self.below(u32::BITS - most.leading_zeros());
        self.between(low, most.min(low - 1 + low))
    }

    /// A digit of base 16, a letter as a capital.
    pub fn digit(&mut self) -> u8 {
        self.pick(b"0123456789ABCDEF")
    }

    /// One of the given values.
    pub fn pick<T: Copy>(&mut self, values: &[T]) -> T {
        values[self.below(values.len() as u32) as usize]
    }
}
