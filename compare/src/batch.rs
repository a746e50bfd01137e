//! A batch of lines, and the answers of the proved program and the reference's side by side.

mod answered;

pub use answered::{told, Answered};

use crate::random::Random;

/// So many lines of a seed.
#[derive(Clone, Copy, Debug)]
pub struct Batch {
    pub seed: u64,
    pub index: u64,
    pub lines: usize,
}

/// In so many of 100 cases a line with a letter as identification is followed by the same in the other case.
const FOLLOWED: u32 = 12;

/// The lines of a batch, each drawn, or the one before it in the other case.
pub fn lines(
    batch: Batch,
    random: &mut Random,
    draw: fn(&mut Random) -> Vec<u8>,
    in_other_case: fn(&[u8]) -> Option<Vec<u8>>,
) -> Vec<Vec<u8>> {
    let mut lines: Vec<Vec<u8>> = Vec::new();
    while lines.len() < batch.lines {
        let other = lines.last().and_then(|line| in_other_case(line)).filter(|_| random.chance(FOLLOWED));
        lines.push(other.unwrap_or_else(|| draw(random)));
    }
    lines
}

/// How many lines are the one before them in the other case.
pub fn pairs(lines: &[Vec<u8>], in_other_case: fn(&[u8]) -> Option<Vec<u8>>) -> u64 {
    lines.windows(2).filter(|two| in_other_case(&two[0]).as_ref() == Some(&two[1])).count() as u64
}

/// All lines, each ended by a line feed.
pub fn text_of(lines: &[Vec<u8>]) -> Vec<u8> {
    lines.iter().flat_map(|line| line.iter().chain(b"\n")).copied().collect()
}
