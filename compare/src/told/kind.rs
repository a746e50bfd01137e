//! The kinds of answers of the program desk.

use crate::station::is_typed;

/// What an answer is, by its first characters.
pub enum Kind<'a> {
    /// A line of the controller.
    Line,
    /// So many of them, from a command of the other bench make.
    Converted(usize),
    /// The desk's own number, which no reply block has.
    Number(u8),
    /// Words of a reply block: what it is, and its number if it has one that turns away.
    Block(&'a str, Option<u8>),
    /// `opening`, `master` and its axis, `ticks`, a form of `trial`, or `sums`.
    Other(&'a str),
    /// `?` and the first word of the nearest form, or `all words`.
    Question(&'a str),
}

/// The digits at the front of a text.
fn number_at_front(text: &str) -> u8 {
    let end = text.find(|character: char| !character.is_ascii_digit()).unwrap_or(text.len());
    text[..end].parse().expect("a number stands there")
}

fn first_word(text: &str) -> &str {
    text.split([' ', ',']).next().unwrap_or(text)
}

/// The first word of a command or of its echo; the two starts apart.
pub fn command_word(text: &str) -> &str {
    if text.contains(" after dwell") {
        "start after dwell"
    } else {
        first_word(text)
    }
}

/// The desk's own number, or that of a reply block; 10 is of both kinds.
fn turned_away<'a>(line: &[u8], behind: &'a str) -> Kind<'a> {
    match number_at_front(behind) {
        number @ (4..=17 | 26) if line.starts_with(b"U") => Kind::Block("turned away", Some(number)),
        number => Kind::Number(number),
    }
}

/// The form of a trial that became a D line.
fn trial_form(line: &[u8]) -> &'static str {
    match line.iter().filter(|&&byte| byte == b' ').count() {
        1 => "trial 0",
        2 => "trial 0 6000",
        _ => "trial 0 6000 002000",
    }
}

/// A list of words behind the question mark is that of all words where its second one is another word.
fn question(form: &str) -> Kind<'_> {
    if form.starts_with("start, ") {
        Kind::Question("all words")
    } else {
        Kind::Question(first_word(form))
    }
}

pub fn kind_of<'a>(line: &[u8], answer: &'a str) -> Kind<'a> {
    if let Some(behind) = answer.strip_prefix("turned away by ") {
        return turned_away(line, behind);
    }
    if let Some(form) = answer.strip_prefix("? ") {
        return question(form);
    }
    if is_typed(line) {
        return Kind::Converted(answer.lines().count());
    }
    match answer.as_bytes() {
        b"P0B0" => Kind::Other("opening"),
        [b'T', ..] => Kind::Other("ticks"),
        [b'D', ..] => Kind::Other(trial_form(line)),
        [b'm', ..] => Kind::Other(answer),
        [b'p', b'u', ..] => Kind::Other("sums"),
        [b'P' | b'Q' | b'q' | b'W', ..] => Kind::Line,
        _ => Kind::Block(command_word(answer.strip_prefix("accepted: ").unwrap_or(answer)), None),
    }
}
