//! Counters of identifications at the host's end, in lines that are written and in reply blocks that are read.

use super::{Identifications, SmallDigits};
use crate::counted::{grouped, not_met};
use reference::line::LINE_END;
use reference::read_block;
use std::fmt;

/// The place of a block's identification, and its length with one.
const NINTH: usize = 8;
const WITH_ONE: usize = 10;

#[derive(Clone, Debug, Default)]
pub struct AtHost {
    written: Identifications,
    read: Identifications,
    /// Commands without a line (19) and bytes that are no block (20) for their identification alone.
    no_line: u64,
    no_block: u64,
    small: SmallDigits,
    /// Lines behind the same with the identification in the other case.
    other_case: u64,
}

/// Whether a numeral in the place of the identification would make a block of these bytes, which are none.
fn is_none_for_identification(bytes: &[u8]) -> bool {
    let with_numeral = |mut block: Vec<u8>| {
        block[NINTH] = b'0';
        block
    };
    bytes.len() == WITH_ONE && read_block(&with_numeral(bytes.to_vec())).is_ok()
}

impl AtHost {
    pub fn written(&mut self, identification: u8) {
        self.written.count(identification);
    }

    pub fn no_line(&mut self) {
        self.no_line += 1;
    }

    /// Bytes given to the reader.
    pub fn given(&mut self, bytes: &[u8]) {
        match read_block(bytes) {
            Ok(block) => block.identification.into_iter().for_each(|digit| self.read.count(digit.character())),
            Err(_) => {
                self.small.count(bytes);
                self.no_block += is_none_for_identification(bytes) as u64;
            }
        }
    }

    /// A block without its 0D given to the reader.
    pub fn given_without_end(&mut self, bytes: &[u8]) {
        self.given(&[bytes, &[LINE_END]].concat());
    }

    /// So many lines were the one before them in the other case.
    pub fn other_case(&mut self, lines: u64) {
        self.other_case += lines;
    }

    pub fn add(&mut self, more: &AtHost) {
        self.written.add(&more.written);
        self.read.add(&more.read);
        self.no_line += more.no_line;
        self.no_block += more.no_block;
        self.small.add(&more.small);
        self.other_case += more.other_case;
    }

    /// A line that says what was not met; nothing where all was.
    pub fn not_met(&self) -> String {
        let rest = [("19 for it alone", self.no_line), ("20 for it alone", self.no_block), ("pairs", self.other_case)];
        let small = self.small.named().map(|(place, count)| (format!("a small {place}"), count));
        let rest = rest.map(|(name, count)| (name.to_string(), count)).into_iter().chain(small);
        not_met(self.written.named("written").chain(self.read.named("read")).chain(rest))
    }
}

impl fmt::Display for AtHost {
    fn fmt(&self, f: &mut fmt::Formatter) -> fmt::Result {
        let (no_line, no_block) = (grouped(self.no_line), grouped(self.no_block));
        writeln!(f, "  identifications written: {}; 19 for it alone {no_line}", self.written)?;
        writeln!(f, "  identifications read: {}; 20 for it alone {no_block}", self.read)?;
        writeln!(f, "  no blocks for a small letter alone: {}", self.small)?;
        writeln!(f, "  lines behind the same in the other case {}", grouped(self.other_case))?;
        write!(f, "{}", self.not_met())
    }
}
