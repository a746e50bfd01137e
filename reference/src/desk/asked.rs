//! From words: `silent ` before a form, and ` as ` with the identification behind it.

/// From words: a line, and what stood before and behind its form.
pub(super) struct Asked<'a> {
    pub(super) silent: bool,
    /// The character behind ` as `, whether it may be an identification or not.
    pub(super) identification: Option<u8>,
    pub(super) body: &'a [u8],
}

/// From words: ` as ` and one character behind it is the identification.
fn identified(line: &[u8]) -> (&[u8], Option<u8>) {
    match line {
        [body @ .., b' ', b'a', b's', b' ', identification] => (body, Some(*identification)),
        _ => (line, None),
    }
}

/// From words: `silent ` is taken off first, the identification off what is left.
pub(super) fn asked(line: &[u8]) -> Asked<'_> {
    let behind = line.strip_prefix(b"silent ");
    let (body, identification) = identified(behind.unwrap_or(line));
    Asked { silent: behind.is_some(), identification, body }
}
