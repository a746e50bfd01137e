//! Reference of the five-pump blending controller, written from paper 01 and, where that is silent, the manual; the
//! journal from paper 02, 1/14, the watch of power-on from 2/14, the settled inputs of W lines from 3/14, the trial
//! from 5/14, carrying on from 6/14, small identification letters from 7/14, and the lines of the other bench make from
//! 8/14 with source document 001; the programs desk and preview from the page on the line protocol.
//!
//! Each rule is a small function; its comment names the section of paper 01 that holds the rule, the journal, the
//! request of paper 02, the source document, or "From words", "Lines of the other bench make" or "A dose on screen
//! first" of that page.

#![forbid(unsafe_code)]

pub mod bench;
pub mod coded;
pub mod command;
pub mod desk;
pub mod digest;
pub mod digit;
pub mod fields;
pub mod figures;
pub mod host;
pub mod inputs;
pub mod journal;
pub mod line;
pub mod lists;
pub mod machine;
pub mod make_desk;
pub mod make_host;
pub mod make_journal;
pub mod make_lists;
pub mod make_preview;
pub mod make_station;
pub mod output;
pub mod preview;
pub mod ramp;
pub mod reply;
pub mod share;
pub mod station;
pub mod streams;
mod text;
pub mod trial;
pub mod vectors;

pub use command::{Command, CommandValue};
pub use digit::Digit;
pub use figures::{figures_of, Figures, Setting};
pub use host::{pick_master, read_block, watch_off_line, write_line, Block, Reading};
pub use journal::Entry;
pub use machine::{front, ByteAnswer, Machine, TickAnswer};
pub use trial::{trial, Trial};
