//! Stored lists and vectors: the text of a stored input under way, and the characters that every stored input tries.

/// Paper 02, 7/14: the identifications.
pub(crate) const IDENTIFICATIONS: &str = "0123456789ABCDEFabcdef";

/// Turned away, 7, 19 and 20: the characters next to 0-9, A-F and a-f, which are no identification.
pub(crate) const NEXT_TO_THEM: &str = "/:@G`g";

/// Stored lists and vectors: the lines written so far.
pub(crate) struct Text(String);

impl Text {
    /// A text begins with its first heading.
    pub(crate) fn begun(words: &str) -> Text {
        let mut text = Text(String::new());
        text.heading(words);
        text
    }

    /// A heading in plain words.
    pub(crate) fn heading(&mut self, words: &str) {
        self.plain(&format!("# {words}"));
    }

    /// A line as it stands.
    pub(crate) fn plain(&mut self, line: &str) {
        self.0.push_str(line);
        self.0.push('\n');
    }

    /// The whole text.
    pub(crate) fn ended(self) -> String {
        self.0
    }

    /// The whole text, with one more line that lacks its line feed.
    pub(crate) fn ended_by(self, line: &str) -> String {
        self.0 + line
    }
}
