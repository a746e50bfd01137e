//! Stored vectors of the converter: the lines of the text.

use crate::fields::bytes_text;
use crate::station::NULL;
use crate::text::Text;

impl Text {
    /// Stored vectors, C: a line of these bytes.
    pub(super) fn command(&mut self, bytes: &[u8]) {
        self.plain(&format!("C {}", bytes_text(bytes)));
    }

    /// Stored vectors, C: a line of a text with its 00.
    pub(super) fn ended_command(&mut self, text: &str) {
        self.command(&[text.as_bytes(), &[NULL]].concat());
    }

    /// Stored vectors, C: a line for each of these texts with its 00.
    pub(super) fn ended_commands(&mut self, texts: &[&str]) {
        for text in texts {
            self.ended_command(text);
        }
    }
}
