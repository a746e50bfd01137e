//! The program desk: the same words, reply blocks, sums and commands of the other bench make through the proved program
//! and through the reference's.

use crate::batch::{self, Answered, Batch};
use crate::program::{self, Places};
use crate::random::{part, Random};
use crate::told::Told;
use crate::words;
use std::io::{self, BufReader};

fn lines_of(batch: Batch) -> Vec<Vec<u8>> {
    let mut random = Random::of_item(batch.seed, part::WORDS, batch.index);
    batch::lines(batch, &mut random, words::line, words::in_other_case)
}

/// The text of a batch. In every second one the last line lacks its line feed, unless it is empty and so would be none.
fn text_of(batch: Batch, lines: &[Vec<u8>]) -> Vec<u8> {
    let mut text = batch::text_of(lines);
    if batch.index % 2 == 1 && lines.last().is_some_and(|line| !line.is_empty()) {
        text.pop();
    }
    text
}

/// The reference's program.
fn reference_desk(text: &[u8], output: &mut Vec<u8>) -> io::Result<()> {
    reference::desk::run(BufReader::new(text), output)
}

/// Runs a batch on both; what it was told, or the difference in words. `name` is a working file of the caller's own.
pub fn compare(places: &Places, batch: Batch, name: &str) -> Result<Told, String> {
    let lines = lines_of(batch);
    let (text, told) = (text_of(batch, &lines), batch::told(&lines, reference::desk::answer));
    let file = places.folder.join(name);
    let proved = |text: &[u8]| program::output(&places.desk, &[], &file, text);
    let reference = |text: &[u8]| program::reference_output(reference_desk, text);
    Answered { batch, lines: &lines, text: &text, told: &told }.compare(&proved, &reference)?;
    Ok(Told::of(&lines, &told))
}

#[cfg(test)]
mod tests {
    use super::*;
    use crate::counted::Counted;

    #[test]
    fn identifications_and_commands_of_every_kind_come() {
        let mut seen = Told::default();
        for index in 0..2 {
            let lines = lines_of(Batch { seed: 1, index, lines: 10_000 });
            seen.add(&Told::of(&lines, &batch::told(&lines, reference::desk::answer)));
        }
        assert_eq!(seen.identified.not_met(), "", "{}", seen.identified);
        assert_eq!(seen.converted.not_met(), "", "{}", seen.converted);
    }
}
