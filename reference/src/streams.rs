//! The programs' input and output: lines ended by a line feed, from standard input to standard output.

use std::io::{self, BufRead, BufReader, BufWriter, Read, StdinLock, StdoutLock, Write};

/// Bytes that a program reads or writes at once.
const AT_ONCE: usize = 1 << 16;

/// Host end and program: the next line without its line feed, which the last may lack; whether there is one.
fn next_line<R: BufRead>(input: &mut R, line: &mut Vec<u8>) -> io::Result<bool> {
    line.clear();
    if input.read_until(b'\n', line)? == 0 {
        return Ok(false);
    }
    if line.last() == Some(&b'\n') {
        line.pop();
    }
    Ok(true)
}

/// Host end and program: every line.
pub fn each_line<R: BufRead>(mut input: R, mut take: impl FnMut(&[u8]) -> io::Result<()>) -> io::Result<()> {
    let mut line = Vec::new();
    while next_line(&mut input, &mut line)? {
        take(&line)?;
    }
    Ok(())
}

/// From words: what is answered is written out before a read that may have to wait, so each line is answered at once
/// and lines that come together are quick.
fn written_out<R: Read, W: Write>(input: &BufReader<R>, output: &mut W) -> io::Result<()> {
    if input.buffer().contains(&b'\n') {
        return Ok(());
    }
    output.flush()
}

/// From words: every line, each answered at once.
pub fn each_line_at_once<R: Read, W: Write>(
    mut input: BufReader<R>,
    output: &mut W,
    mut take: impl FnMut(&[u8], &mut W) -> io::Result<()>,
) -> io::Result<()> {
    let mut line = Vec::new();
    while next_line(&mut input, &mut line)? {
        take(&line, output)?;
        written_out(&input, output)?;
    }
    Ok(())
}

/// Host end and program: a program reads standard input to its end and writes standard output.
pub fn on_standard_streams(
    run: impl FnOnce(BufReader<StdinLock<'static>>, &mut BufWriter<StdoutLock<'static>>) -> io::Result<()>,
) -> io::Result<()> {
    let input = BufReader::with_capacity(AT_ONCE, io::stdin().lock());
    let mut output = BufWriter::with_capacity(AT_ONCE, io::stdout().lock());
    run(input, &mut output)
}
