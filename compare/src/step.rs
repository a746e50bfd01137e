//! The steps of a list: calls, and trials between them.

use crate::call::{Call, TICKS};
use crate::trial::Asked;
use std::fmt;

#[derive(Clone, Copy, Debug, PartialEq, Eq)]
pub enum Step {
    Call(Call),
    Trial(Asked),
    /// The calls behind the last trial have done what it tried: the start line and, where it is accepted, the ticks.
    AsTried,
}

impl Step {
    /// How often it is done: a call of ticks once for each of them.
    pub fn times(&self) -> u32 {
        match self {
            Step::Call(Call { kind: TICKS, count, .. }) => *count,
            _ => 1,
        }
    }

    /// The step as it was when it had been done so many times.
    pub fn done(self, times: u32) -> Step {
        match self {
            Step::Call(Call { kind: TICKS, value, .. }) => Step::Call(Call::ticks(times, value)),
            step => step,
        }
    }
}

impl fmt::Display for Step {
    fn fmt(&self, f: &mut fmt::Formatter) -> fmt::Result {
        match self {
            Step::Call(call) => write!(f, "{call}"),
            Step::Trial(asked) => write!(f, "{asked}"),
            Step::AsTried => write!(f, "this was as tried"),
        }
    }
}
