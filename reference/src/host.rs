//! Host end: writer of a full line, reader of one reply block, master picker, and the line that turns the watch off.

mod reader;
mod writer;

pub use reader::{read_block, Block, Reading};
pub use writer::{line_text, write_line, LEAST_LINE_BUFFER};

/// Host end: master picker, the longest; of equals the lowest axis; 0 if all are 0.
pub fn pick_master(distances: [u32; 5]) -> u8 {
    let mut master = 0;
    for axis in 1..5 {
        if distances[axis] > distances[master] {
            master = axis;
        }
    }
    master as u8
}

/// Paper 02, 2/14: the line that host tools and the bench program send once after each power-on, with its 0D. It is
/// not the writer's line of that command, which is a full one.
pub fn watch_off_line() -> [u8; 5] {
    *b"P0B0\x0D"
}
