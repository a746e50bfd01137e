//! From words, rule 6: the nearest form.

/// From words: each word and its forms, in the order of the tables.
pub const FORMS: [(&str, &str); 23] = [
    ("start", "start 0, start 0 after dwell"),
    ("travel", "travel 2"),
    ("position", "position 1"),
    ("dwell", "dwell 20"),
    ("watch", "watch 3"),
    ("polarity", "polarity 003"),
    ("low", "low 00010"),
    ("high", "high 01000"),
    ("outputs", "outputs ABCDEF"),
    ("speed", "speed 2500.25"),
    ("slope", "slope 1250"),
    ("distance", "distance 2 -5000"),
    ("stop", "stop"),
    ("status", "status"),
    ("everything", "everything"),
    ("inputs", "inputs"),
    ("clear", "clear"),
    ("reset", "reset"),
    ("carry", "carry on"),
    ("opening", "opening"),
    ("master", "master 5 2 3 0 0"),
    ("ticks", "ticks 1000, ticks 1000 000010"),
    ("trial", "trial 0, trial 0 6000, trial 0 6000 002000"),
];

/// From words: how many first letters two words have in common, capitals and small letters alike.
fn common_letters(word: &[u8], other: &[u8]) -> usize {
    word.iter().zip(other).take_while(|(letter, other)| letter.eq_ignore_ascii_case(other)).count()
}

/// From words: the first word is what stands before the first space.
pub(super) fn first_word(body: &[u8]) -> &[u8] {
    body.split(|&character| character == b' ').next().unwrap_or(body)
}

/// From words: the form of the word with the most letters in common, of equals the first; all words where none has one.
fn nearest_form(first: &[u8]) -> String {
    let (mut most, mut nearest) = (0, None);
    for (word, form) in FORMS {
        let common = common_letters(first, word.as_bytes());
        if common > most {
            (most, nearest) = (common, Some(form));
        }
    }
    match nearest {
        Some(form) => form.to_string(),
        None => FORMS.map(|(word, _)| word).join(", "),
    }
}

/// From words: `?`, a space and the nearest form; `silent ` and an identification are left out of the body.
pub(super) fn question(body: &[u8]) -> String {
    format!("? {}", nearest_form(first_word(body)))
}
