//! Lines that are turned away.

use super::{accept, line, one_tick};
use reference::Machine;

/// The line must be turned away with this number and alter nothing; from 10 on it zeroes the watch count.
pub fn refused(machine: &mut Machine, characters: &[u8], wanted: u8) -> String {
    one_tick(machine, 0);
    let mut expected = machine.clone();
    let (reply, number) = line(machine, characters);
    assert_eq!(number, wanted, "{}", String::from_utf8_lossy(characters));
    if wanted >= 10 {
        assert_ne!(*machine, expected);
        accept(&mut expected, &["Q46"]);
    }
    assert_eq!(*machine, expected);
    reply
}

/// Each line must be turned away with this number and have this reply.
pub fn refused_each(machine: &mut Machine, texts: &[&str], wanted: u8, reply: &str) {
    for text in texts {
        assert_eq!(refused(machine, text.as_bytes(), wanted), reply, "{text}");
    }
}
