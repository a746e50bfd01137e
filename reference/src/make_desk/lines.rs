//! From words: the stored input of a program for people under way, of any bytes.

/// From words: the lines written so far.
pub(crate) struct Lines(Vec<u8>);

impl Lines {
    /// No line yet.
    pub(crate) fn begun() -> Lines {
        Lines(Vec::new())
    }

    /// A line of any bytes but the line feed.
    pub(crate) fn bytes(&mut self, line: &[u8]) {
        self.0.extend(line);
        self.0.push(b'\n');
    }

    /// A line.
    pub(crate) fn line(&mut self, line: &str) {
        self.bytes(line.as_bytes());
    }

    /// A line for each of these.
    pub(crate) fn each(&mut self, lines: &[&str]) {
        for line in lines {
            self.line(line);
        }
    }

    /// A word, and each of these behind it: one line each.
    pub(crate) fn behind(&mut self, word: &str, figures: &[&str]) {
        for figure in figures {
            self.line(&format!("{word} {figure}"));
        }
    }

    /// The whole text, with one more line that lacks its line feed.
    pub(crate) fn ended_by(mut self, line: &str) -> Vec<u8> {
        self.0.extend(line.as_bytes());
        self.0
    }
}
