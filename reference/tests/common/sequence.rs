//! A fixed sequence of numbers, and lines drawn from it.

use reference::pick_master;

/// A fixed sequence of numbers.
pub struct Sequence(pub u64);

impl Sequence {
    pub fn draw(&mut self) -> u64 {
        self.0 ^= self.0 << 13;
        self.0 ^= self.0 >> 7;
        self.0 ^= self.0 << 17;
        self.0
    }

    pub fn below(&mut self, end: u64) -> u64 {
        (self.draw() >> 11) % end
    }
}

/// Most starts name the longest axis, so that many of them take effect.
fn start_master(sequence: &mut Sequence, next_distances: [u32; 5]) -> u64 {
    if sequence.below(4) == 0 {
        sequence.below(5)
    } else {
        pick_master(next_distances) as u64
    }
}

/// A W line, most often accepted and not silent.
fn drawn_w(sequence: &mut Sequence) -> String {
    let second = if sequence.below(5) == 0 { 4 } else { 0 };
    let digits = ["", "", "A5A5A5", "0FF0ff7", "000000f", "1"][sequence.below(6) as usize];
    format!("W{second}{digits}")
}

/// A line that is often a command, without its 0D.
pub fn drawn_line(sequence: &mut Sequence, next_distances: [u32; 5]) -> Vec<u8> {
    let text = match sequence.below(42) {
        0..=5 => {
            let end = [3, 40, 300, 300, 300, 524_288][sequence.below(6) as usize];
            format!("P0{}{:05X}", sequence.below(5), sequence.below(end) | (sequence.below(2) << 19))
        }
        6..=8 => format!("P08{:05X}", sequence.below(1_100_000)),
        9..=10 => format!("P09{:05X}", sequence.below(4_200)),
        11..=12 => format!("P0A{:05X}", sequence.below(20)),
        13 => format!("P0B{}", sequence.below(5)),
        14..=17 => format!("Q08{:X}", start_master(sequence, next_distances)),
        18..=22 => format!("Q08{:X}", 8 + start_master(sequence, next_distances)),
        23 => "Q09".to_string(),
        24..=25 => "Q0B".to_string(),
        26 => format!("Q0D{:05X}", 0x33FF & (1 << sequence.below(20))),
        27 => format!("Q0E{:05X}", 0x33FF & (1 << sequence.below(20))),
        28 => "q08".to_string(),
        29..=32 => drawn_w(sequence),
        33..=40 => ["Q0C", "Q0C", "Q4C12345F", "Q09"][sequence.below(4) as usize].to_string(),
        _ => return (0..sequence.below(12)).map(|_| (sequence.below(255) as u8).max(14)).collect(),
    };
    text.into_bytes()
}
