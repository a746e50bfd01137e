//! The same command or block with its identification in the other case (paper 02, 7/14).

use crate::identification::other_case;

/// The characters of a `B` line with a block that has an identification.
const IDENTIFIED_BLOCK: usize = 22;

/// Where the two digits of the identification stand, if there may be one.
fn place(line: &[u8]) -> Option<usize> {
    match line {
        [b'W', ..] => line.len().checked_sub(2),
        [b'B', ..] if line.len() == IDENTIFIED_BLOCK => Some(IDENTIFIED_BLOCK - 4),
        _ => None,
    }
}

/// The same line in the other case, where its identification is a letter.
pub fn in_other_case(line: &[u8]) -> Option<Vec<u8>> {
    let place = place(line)?;
    let digits = std::str::from_utf8(&line[place..place + 2]).ok()?;
    let other = other_case(u8::from_str_radix(digits, 16).ok()?)?;
    let mut line = line.to_vec();
    line[place..place + 2].copy_from_slice(format!("{other:02X}").as_bytes());
    Some(line)
}

#[cfg(test)]
mod tests {
    use super::*;

    #[test]
    fn letters_alone_have_another_case() {
        let other = |line: &str| in_other_case(line.as_bytes()).map(|line| String::from_utf8_lossy(&line).into_owned());
        assert_eq!(other("W 0A 0 09 00 0 00000000 41"), Some("W 0A 0 09 00 0 00000000 61".into()));
        assert_eq!(other("B 5330363030303030660D"), Some("B 5330363030303030460D".into()));
        let none = ["W 0A 0 09 00 0 00000000 --", "W 0A 0 09 00 0 00000000 39", "B 53303630303030300D", "M", "W"];
        assert!(none.iter().all(|line| other(line).is_none()));
    }
}
