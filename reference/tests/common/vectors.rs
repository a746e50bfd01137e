//! Lines of the stored vectors.

use reference::vectors::answer;

/// Lines and what each prints, without the line feeds.
pub fn prints(pairs: &[(&str, &str)]) {
    for (line, text) in pairs {
        assert_eq!(answer(line.as_bytes()), format!("{text}\n"), "{line}");
    }
}
