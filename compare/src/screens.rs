//! Counters of previews: those of every session, and what D lines it has.

use crate::counted::{grouped, Counted};
use crate::coverage::Coverage;
use reference::desk::OVER_LONG;
use reference::preview::{read_trial_line, Asked};
use std::fmt;

#[derive(Clone, Debug, Default)]
pub struct Screens {
    pub seen: Coverage,
    /// Lines that begin with D, those of them without the form, and of these those that are over-long.
    lines: u64,
    formless: u64,
    over_long: u64,
    /// Previews whose last line is a D line without its line feed.
    unended: u64,
}

impl Screens {
    /// A line that begins with D; what it asks for, if it has the form.
    pub fn line(&mut self, line: &[u8]) -> Option<Asked> {
        let asked = read_trial_line(line);
        self.lines += 1;
        self.formless += asked.is_none() as u64;
        self.over_long += (line.len() >= OVER_LONG) as u64;
        asked
    }

    /// The whole text, and what else it met.
    pub fn whole(&mut self, text: &[u8], seen: Coverage) {
        self.seen = seen;
        let last = text.rsplit(|&byte| byte == b'\n').next().unwrap_or_default();
        self.unended += last.starts_with(b"D") as u64;
    }
}

impl Counted for Screens {
    fn add(&mut self, more: &Screens) {
        self.seen.add(&more.seen);
        self.lines += more.lines;
        self.formless += more.formless;
        self.over_long += more.over_long;
        self.unended += more.unended;
    }
}

impl fmt::Display for Screens {
    fn fmt(&self, f: &mut fmt::Formatter) -> fmt::Result {
        let g = grouped;
        let formless = format!("without the form {}, of these {} over-long", g(self.formless), g(self.over_long));
        write!(f, "{}  lines that begin with D {}, {formless}", self.seen, g(self.lines))?;
        writeln!(f, "; as a last line without its line feed {}", g(self.unended))
    }
}
