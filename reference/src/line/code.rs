//! Turned away, 8 and 9: the codes of P, Q and q, and the digit counts that they and W take.

/// Lines: the codes listed for P, Q and q.
fn code_listed(letter: u8, code: u8) -> bool {
    match letter {
        b'P' => matches!(code, 0..=4 | 8 | 9 | 0xA | 0xB | 0xC),
        b'Q' => matches!(code, 0..=4 | 6 | 8..=0xE),
        _ => matches!(code, 0..=4 | 8),
    }
}

/// Turned away, 8: for P, Q, q the code is absent or unlisted.
pub(super) fn check_code(letter: u8, digits: &[u8]) -> Result<u8, u8> {
    match digits.first() {
        Some(&code) if code_listed(letter, code) => Ok(code),
        _ => Err(8),
    }
}

/// Lines: the digit counts that a code takes.
fn count_taken(letter: u8, code: u8, count: usize) -> bool {
    match (letter, code) {
        (b'P', 0xB) => (2..=6).contains(&count),
        (b'P', _) => count == 6,
        (b'Q', 8) => (2..=6).contains(&count),
        (b'Q', 0xD) | (b'Q', 0xE) => count == 6,
        _ => (1..=6).contains(&count),
    }
}

/// Turned away, 9: digit count not the code's.
pub(super) fn check_count(letter: u8, code: u8, count: usize) -> Result<(), u8> {
    count_taken(letter, code, count).then_some(()).ok_or(9)
}

/// Turned away, 9: W has no digits (query) or six.
pub(super) fn check_w_count(count: usize) -> Result<(), u8> {
    (count == 0 || count == 6).then_some(()).ok_or(9)
}
