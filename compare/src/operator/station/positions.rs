//! The positions as replies tell them, and lines that are received as they are sent.

use super::super::{Operator, AXES};
use crate::bench::Bench;
use crate::coverage::Positions;
use reference::line::LINE_END;

/// The number of a byte that a short buffer was lent to.
const LOST: u8 = 2;

/// The position of an axis in the reply to its reading: 20 bits, the highest of them for minus.
fn told_position(reply: &[u8], axis: usize) -> Option<i32> {
    let [b's', _, code, digits @ .., LINE_END] = reply else { return None };
    let digits = std::str::from_utf8(digits).ok().filter(|digits| digits.len() == 5)?;
    let bits = u32::from_str_radix(digits, 16).ok()?;
    (*code == b'0' + axis as u8).then_some((bits << 12) as i32 >> 12)
}

impl Operator {
    /// A line as it is; its number and its reply, unless a byte of it is lost.
    pub(super) fn send_whole<B: Bench>(&mut self, bench: &mut B, line: &str) -> Option<(u8, Vec<u8>)> {
        let number = bench.send(&mut self.random, line.as_bytes());
        let last = bench.last_received();
        (number != LOST && last.line == line.as_bytes()).then(|| (number, last.reply.clone()))
    }

    /// The positions as replies tell them; none where one is not answered.
    pub(super) fn positions<B: Bench>(&mut self, bench: &mut B) -> Option<Positions> {
        let mut positions = [0; AXES];
        for (axis, position) in positions.iter_mut().enumerate() {
            let (_, reply) = self.send_whole(bench, &format!("q0{axis}"))?;
            *position = told_position(&reply, axis)?;
        }
        Some(positions)
    }
}

#[cfg(test)]
mod tests {
    use super::*;

    #[test]
    fn positions_are_read_from_replies() {
        assert_eq!(told_position(b"s0000005\r", 0), Some(5));
        assert_eq!(told_position(b"sA3FFFFF\r", 3), Some(-1));
        assert_eq!(told_position(b"s0180000\r", 1), Some(-524_288));
        assert_eq!(told_position(b"s0180000\r", 0), None);
        assert_eq!(told_position(b"", 0), None);
    }
}
