//! What a station's moves are followed by: the last line with its reply, and how many moves began.

use super::Observed;
use crate::coverage::Stations;

/// A line as it was received, and its reply.
#[derive(Clone, Debug, Default)]
pub struct Received {
    pub line: Vec<u8>,
    pub reply: Vec<u8>,
}

impl Observed {
    pub fn last_received(&self) -> &Received {
        &self.last
    }

    pub fn moves_begun(&self) -> u64 {
        self.seen.moves.starts + self.seen.moves.carry_ons
    }

    pub fn stations(&mut self) -> &mut Stations {
        &mut self.seen.stations
    }
}
