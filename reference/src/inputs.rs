//! Stops (6.6 to 6.10): how the input word is read against the low-ON and high-ON settings.

/// Stops: the bit of the emergency input.
pub const EMERGENCY_BIT: u32 = 12;

/// Stops: the bit of the sensor input.
pub const SENSOR_BIT: u32 = 13;

/// Stops: the input word, 24 bits, with the two settings that make its bits count.
#[derive(Clone, Copy, Debug, Default, PartialEq, Eq)]
pub struct Inputs {
    pub word: u32,
    pub low_on: u32,
    pub high_on: u32,
}

/// One bit of a word.
pub fn bit(word: u32, number: u32) -> bool {
    (word >> number) & 1 == 1
}

impl Inputs {
    /// Stops: low-ON has the bit and that input is low.
    fn low(&self, number: u32) -> bool {
        bit(self.low_on, number) && !bit(self.word, number)
    }

    /// Stops: high-ON has the bit and that input is high.
    fn high(&self, number: u32) -> bool {
        bit(self.high_on, number) && bit(self.word, number)
    }

    /// Stops: emergency is active while low where low-ON has bit 12, or while high where high-ON has it.
    pub fn emergency_active(&self) -> bool {
        self.low(EMERGENCY_BIT) || self.high(EMERGENCY_BIT)
    }

    /// Stops: sensor is active while low where low-ON has bit 13, or while high where high-ON has it.
    pub fn sensor_active(&self) -> bool {
        self.low(SENSOR_BIT) || self.high(SENSOR_BIT)
    }

    /// Stops: low-ON bit 2k blocks minus while that input is low; high-ON bit 2k+1 blocks minus while high.
    pub fn minus_blocked(&self, axis: usize) -> bool {
        let k = axis as u32;
        self.low(2 * k) || self.high(2 * k + 1)
    }

    /// Stops: low-ON bit 2k+1 blocks plus while that input is low; high-ON bit 2k blocks plus while high.
    pub fn plus_blocked(&self, axis: usize) -> bool {
        let k = axis as u32;
        self.low(2 * k + 1) || self.high(2 * k)
    }

    /// Stops: an axis is blocked in its direction; an axis of distance 0 is never blocked.
    pub fn axis_blocked(&self, axis: usize, distance: u32, minus: bool) -> bool {
        if distance == 0 {
            return false;
        }
        if minus {
            self.minus_blocked(axis)
        } else {
            self.plus_blocked(axis)
        }
    }

    /// Stops: some axis is blocked.
    pub fn some_axis_blocked(&self, distances: [u32; 5], minus: [bool; 5]) -> bool {
        (0..5).any(|axis| self.axis_blocked(axis, distances[axis], minus[axis]))
    }
}
