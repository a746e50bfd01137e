//! Stored inputs: `make_vectors` and `lists`, `host`, `station`, `journal`, `desk` or `preview` writes one of the six
//! texts to standard output.

use reference::{make_desk::desk_text, make_host::host_text, make_journal::journal_text, make_lists::lists_text};
use reference::{make_preview::preview_text, make_station::station_text};
use std::io::{self, Write};

/// Stored lists and vectors, and the stored inputs of desk and preview: the text of a name.
fn text_of(name: Option<&str>) -> Option<Vec<u8>> {
    match name {
        Some("lists") => Some(lists_text().into_bytes()),
        Some("host") => Some(host_text().into_bytes()),
        Some("station") => Some(station_text().into_bytes()),
        Some("journal") => Some(journal_text().into_bytes()),
        Some("desk") => Some(desk_text()),
        Some("preview") => Some(preview_text()),
        _ => None,
    }
}

fn main() -> io::Result<()> {
    let name = std::env::args().nth(1);
    match text_of(name.as_deref()) {
        Some(text) => io::stdout().lock().write_all(&text),
        None => Err(io::Error::other("say lists, host, station, journal, desk or preview")),
    }
}
