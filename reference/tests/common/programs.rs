//! The programs run on an input in memory.

use std::io;

/// What a program prints for an input.
pub fn printed<'a>(run: impl FnOnce(&'a [u8], &mut Vec<u8>) -> io::Result<()>, input: &'a [u8]) -> String {
    let mut output = Vec::new();
    run(input, &mut output).unwrap();
    String::from_utf8(output).unwrap()
}
