//! Paper 02, 3/14: the block that a tick must answer, followed from accepted lines and ticks alone.

/// The latest accepted W line, and the accepted ticks after it.
#[derive(Default)]
pub struct Settled {
    line: Vec<u8>,
    ticks: u32,
    /// Blocks that came, and W lines that took the place of an earlier one whose block was still to come.
    pub blocks: u32,
    pub replaced: u32,
}

impl Settled {
    /// The latest W line has its block still to come.
    fn waits(&self) -> bool {
        self.line.get(1) == Some(&b'0') && self.ticks < 2_500
    }

    /// An accepted line, without its 0D.
    pub fn accepted(&mut self, line: &[u8]) {
        if line[0] == b'W' {
            self.replaced += u32::from(self.waits());
            self.line = line.to_vec();
            self.ticks = 0;
        }
    }

    /// An accepted tick: a block exactly if the latest W line is not silent and this is the 2,500th tick after it.
    pub fn ticked(&mut self, switch: u8, word: u32) -> Vec<u8> {
        let waited = self.waits();
        self.ticks += 1;
        if !waited || self.ticks != 2_500 {
            return Vec::new();
        }
        self.blocks += 1;
        let mut block = format!("R{switch:X}{word:06X}").into_bytes();
        block.extend(self.line.iter().skip(8));
        block.push(0x0D);
        block
    }
}
