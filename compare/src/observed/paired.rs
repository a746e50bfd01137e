//! Lines behind the same with the identification in the other case (paper 02, 7/14).

use crate::coverage::{Identified, OtherCase};
use crate::line::are_in_two_cases;
use reference::line::is_silent;

/// The last line, and the last accepted W line that asks for a block.
#[derive(Clone, Debug, Default)]
pub struct Paired {
    line: Vec<u8>,
    w_line: Vec<u8>,
}

impl Paired {
    /// A whole line, its number, and whether the block of an earlier W line is still to come.
    pub fn follow(&mut self, line: &[u8], number: u8, settling: bool, seen: &mut Identified) {
        if are_in_two_cases(&self.line, line) {
            seen.other_case(OtherCase::Next);
        }
        self.line = line.to_vec();
        if number == 0 && line.starts_with(b"W") {
            self.follow_w(line, settling, seen);
        }
    }

    /// An accepted W line. A silent one takes the place of an earlier one too, and has no block.
    fn follow_w(&mut self, line: &[u8], settling: bool, seen: &mut Identified) {
        if is_silent(line) {
            self.w_line.clear();
            return;
        }
        if are_in_two_cases(&self.w_line, line) {
            seen.other_case(if settling { OtherCase::BeforeBlock } else { OtherCase::BehindBlock });
        }
        self.w_line = line.to_vec();
    }
}
