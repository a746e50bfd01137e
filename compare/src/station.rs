//! Commands of the other bench make (paper 02, 8/14): how they are drawn, what the reference converts them to, and what
//! a move's text names.

mod counted;
mod form;
mod moves;
mod names;
mod near;
mod number;

pub use counted::Commands;
pub use form::{axis, comma, command, stop};
pub use moves::{lines, named};
pub use names::{any_name, near_name};
pub use near::near_form;

/// The letters of a name.
const LETTERS: usize = 3;

/// The greatest speed in pulses a second.
pub const MOST_PPS: u32 = 250_000;

/// The lines that a move is converted to; any other command is converted to one.
pub const MOVE_LINES: usize = 6;

/// Whether the desk takes a line that is not over-long for such a command: its first word is three capitals.
pub fn is_typed(line: &[u8]) -> bool {
    let first = line.split(|&byte| byte == b' ').next().unwrap_or_default();
    first.len() == LETTERS && first.iter().all(u8::is_ascii_uppercase)
}

/// Whether a command moves.
pub fn is_move(command: &[u8]) -> bool {
    command.starts_with(b"INC ") || command.starts_with(b"LNI ")
}
