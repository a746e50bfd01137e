//! Counters of commands given to the converter, at the host end and at the desk.

use super::{LETTERS, MOVE_LINES};
use crate::counted::{grouped, not_met, Named};
use reference::station::{CONVERTED, NAMES};
use std::fmt;

/// The forms that are converted, each number as `n`.
#[rustfmt::skip]
const FORMS: [&str; 18] = [
    "SPD X n", "SPD Y n", "INC X n", "INC X -n", "INC Y n", "INC Y -n",
    "LNI X n,Y n", "LNI X n,Y -n", "LNI X -n,Y n", "LNI X -n,Y -n",
    "LNI X n, Y n", "LNI X n, Y -n", "LNI X -n, Y n", "LNI X -n, Y -n",
    "SST X", "SST Y", "SST X,Y", "SST X, Y",
];

/// The numbers that turn a command away: no command, one that this bench lacks, out of range.
const NUMBERS: [u8; 3] = [27, LACKED, OUT_OF_RANGE];
const LACKED: u8 = 28;
const OUT_OF_RANGE: u8 = 29;

/// A number of so many digits behind its leading zeros is a long one: 2 to the 32 has as many.
const LONG: usize = 10;

#[derive(Clone, Debug, Default)]
pub struct Commands {
    /// Those that are converted, by their names and by their forms, and those that became six lines.
    converted: Named<String>,
    forms: Named<String>,
    moves: u64,
    numbers: Named<u8>,
    /// Those turned away by 28, by their names, and those turned away by 29 that have a long number.
    lacked: Named<String>,
    long: u64,
}

/// The first three letters.
fn name_of(command: &[u8]) -> String {
    String::from_utf8_lossy(&command[..LETTERS]).into_owned()
}

/// A command with `n` in the place of each number.
pub(super) fn form_of(command: &[u8]) -> String {
    let mut form = String::new();
    for character in command.iter().copied().map(char::from) {
        match character {
            '0'..='9' if form.ends_with('n') => {}
            '0'..='9' => form.push('n'),
            _ => form.push(character),
        }
    }
    form
}

fn has_long_number(command: &[u8]) -> bool {
    let length = |digits: &[u8]| digits.iter().skip_while(|&&digit| digit == b'0').count();
    command.split(|byte| !byte.is_ascii_digit()).any(|digits| length(digits) >= LONG)
}

/// The names that this bench lacks.
fn lacked_names() -> impl Iterator<Item = String> {
    NAMES.into_iter().filter(|name| !CONVERTED.contains(name)).map(name_of)
}

impl Commands {
    /// A command without its 00 that became so many lines.
    pub fn converted(&mut self, command: &[u8], lines: usize) {
        self.converted.count(name_of(command));
        self.forms.count(form_of(command));
        self.moves += (lines == MOVE_LINES) as u64;
    }

    /// One that a number turned away.
    pub fn turned_away(&mut self, command: &[u8], number: u8) {
        self.numbers.count(number);
        match number {
            LACKED => self.lacked.count(name_of(command)),
            OUT_OF_RANGE => self.long += has_long_number(command) as u64,
            _ => {}
        }
    }

    pub fn add(&mut self, more: &Commands) {
        self.converted.add(&more.converted);
        self.forms.add(&more.forms);
        self.moves += more.moves;
        self.numbers.add(&more.numbers);
        self.lacked.add(&more.lacked);
        self.long += more.long;
    }

    /// A line that says what was not met; nothing where all was.
    pub fn not_met(&self) -> String {
        let forms = FORMS.iter().map(|form| (form.to_string(), self.forms.of(&form.to_string())));
        let lacked = lacked_names().map(|name| (format!("{name} as 28"), self.lacked.of(&name)));
        let numbers = NUMBERS.iter().map(|number| (number.to_string(), self.numbers.of(number)));
        let rest = [("six lines".to_string(), self.moves), ("long numbers".to_string(), self.long)];
        not_met(forms.chain(lacked).chain(numbers).chain(rest))
    }
}

impl fmt::Display for Commands {
    fn fmt(&self, f: &mut fmt::Formatter) -> fmt::Result {
        let (forms, lacked) = (self.forms.names(), self.lacked.names());
        write!(f, "  commands of the other make that became lines: {}", self.converted.listed())?;
        writeln!(f, "; six lines {}; forms {forms} of {}", grouped(self.moves), FORMS.len())?;
        write!(f, "  turned away: {}", self.numbers.listed_with_colons())?;
        writeln!(f, "; long numbers by 29 {}; names by 28 {lacked} of {}", grouped(self.long), lacked_names().count())?;
        write!(f, "{}", self.not_met())
    }
}

#[cfg(test)]
mod tests {
    use super::*;

    #[test]
    fn commands_are_counted_by_name_form_and_number() {
        let mut seen = Commands::default();
        seen.converted(b"LNI X -0020, Y 7", 6);
        seen.converted(b"SST X,Y", 1);
        seen.turned_away(b"ABS", 28);
        seen.turned_away(b"INC X 0000000524288", 29);
        seen.turned_away(b"INC X -4294967296", 29);
        let told = seen.to_string();
        assert!(told.contains("that became lines: LNI 1, SST 1; six lines 1; forms 2 of 18\n"), "{told}");
        assert!(told.contains("turned away: 28: 1, 29: 2; long numbers by 29 1; names by 28 1 of 35\n"), "{told}");
        assert!(told.contains("  NOT MET: SPD X n,") && !told.contains("LNI X -n, Y n,"), "{told}");
        assert!(told.contains("PRG as 28, ") && !told.contains("ABS as 28") && told.ends_with(", 27\n"), "{told}");
    }
}
