//! Paper 02, 6/14: a stopped move is carried on, if there is one, checked by 26, 12, 13, 16 and 17.

use super::{Distances, Machine};

/// Paper 02, 6/14: the number of a carry-on with nothing to carry on, checked after 11.
const NOTHING_LEFT: u8 = 26;

impl Machine {
    /// Paper 02, 6/14: the latest move's open distances, each its distance without its travel, in its direction.
    fn open_distances(&self) -> Distances {
        let mut open = self.latest;
        for (distance, travel) in open.pulses.iter_mut().zip(self.travels) {
            *distance -= travel;
        }
        open
    }

    /// Turned away, 26, 12, 13, 16 and 17, in checking order; 11 comes before them.
    fn check_carry_on(&self) -> Result<(), u8> {
        if !self.left_open {
            return Err(NOTHING_LEFT);
        }
        self.check_inputs()?;
        self.check_ways(&self.open_distances())
    }

    /// Paper 02, 6/14: carrying on isn't a new move. Distances, directions, master and travels stay.
    pub(super) fn carry_on(&mut self) -> Result<(), u8> {
        self.check_carry_on()?;
        self.run_latest();
        Ok(())
    }
}
