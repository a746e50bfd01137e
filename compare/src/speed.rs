//! What a tick, a line, a character, a whole input, the dearest single calls and a trial cost: the proved code, the
//! reference, and the plain C floor where it is found.

pub mod calls;
pub mod clock;
pub mod floor;
pub mod load;
pub mod programs;
pub mod single;
pub mod steady;
pub mod trials;
