//! The proved controller against the reference by another hand: the same sessions and call lists, all answers compared.
//!
//! `session` runs text through the two bench programs, `preview` text with D lines through the two programs preview,
//! `list` plays calls and trials to the two machines. An `operator` works at a `bench` to make them: it sets distances,
//! starts, slows, stops and reads as a cellar master would, at times by commands of the other bench make (`station`).
//! `hosted` runs lines of the page of stored vectors through the two host ends, `worded` words, reply blocks, sums and
//! such commands through the two desks. `speed` times both.

pub mod answers;
pub mod batch;
pub mod bench;
pub mod bits;
pub mod call;
pub mod counted;
pub mod coverage;
pub mod digest;
pub mod hosted;
pub mod identification;
pub mod journal;
pub mod line;
pub mod list;
pub mod observed;
pub mod operator;
pub mod pair;
pub mod played;
pub mod preview;
pub mod program;
pub mod proved;
pub mod random;
pub mod replay;
pub mod screens;
pub mod session;
pub mod shrink;
pub mod speed;
pub mod station;
pub mod step;
#[path = "../../include/temixohuel.rs"]
pub mod temixohuel;
pub mod told;
pub mod touch;
pub mod trial;
pub mod vector;
pub mod wish;
pub mod worded;
pub mod words;
pub mod workers;
