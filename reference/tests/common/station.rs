//! Paper 02, 8/14: commands of an MD5230D station, and what they are converted to.

use reference::station::{convert, Converted};
use reference::{Command, CommandValue};

/// Each asks for a reply and carries no identification.
fn value(command: Command) -> CommandValue {
    CommandValue { command, silent: false, identification: None }
}

/// What a command with its 00 is converted to.
pub fn ended(text: &str) -> Converted {
    convert(&[text.as_bytes(), b"\0"].concat())
}

/// A number above 0 has no command value; a place that is not used holds a reading of the status.
fn check_places(converted: &Converted) {
    assert_eq!(converted.number == 0, converted.count > 0);
    assert!(converted.values[converted.count..].iter().all(|&unused| unused == value(Command::ReadStatus)));
    assert_eq!(converted.used(), &converted.values[..converted.count]);
}

/// A command and the commands that it becomes.
pub fn becomes(text: &str, commands: &[Command]) {
    let converted = ended(text);
    let values: Vec<CommandValue> = commands.iter().map(|&command| value(command)).collect();
    check_places(&converted);
    assert_eq!((converted.number, converted.used()), (0, &values[..]), "{text}");
}

/// The move of X and Y by so many pulses, with this master.
pub fn moves(text: &str, x: i32, y: i32, master: u8) {
    let distance = |axis: u8, pulses: i32| Command::Distance { axis, minus: pulses < 0, pulses: pulses.unsigned_abs() };
    let five = [distance(0, x), distance(1, y), distance(2, 0), distance(3, 0), distance(4, 0)];
    becomes(text, &[&five[..], &[Command::Start { master }]].concat());
}

/// Commands, each with its 00, that a number turns away.
pub fn turned_away(number: u8, texts: &[&str]) {
    for text in texts {
        let converted = ended(text);
        check_places(&converted);
        assert_eq!(converted.number, number, "{text}");
    }
}
