//! The host end: the same lines of `docs/VECTORS.md` through the proved program and through the reference's.

use crate::answers::Answers;
use crate::batch::{self, Answered, Batch};
use crate::program::{self, Places};
use crate::random::{part, Random};
use crate::vector;

fn lines_of(batch: Batch) -> Vec<Vec<u8>> {
    let mut random = Random::of_item(batch.seed, part::VECTORS, batch.index);
    batch::lines(batch, &mut random, vector::line, vector::in_other_case)
}

/// Runs a batch on both; its answers, or the difference in words. `name` is a working file of the caller's own.
pub fn compare(places: &Places, batch: Batch, name: &str) -> Result<Answers, String> {
    let lines = lines_of(batch);
    let (text, told) = (batch::text_of(&lines), batch::told(&lines, reference::vectors::answer));
    let file = places.folder.join(name);
    let proved = |text: &[u8]| program::output(&places.host, &["vectors", "-"], &file, text);
    let reference = |text: &[u8]| program::reference_output(reference::vectors::run, text);
    Answered { batch, lines: &lines, text: &text, told: &told }.compare(&proved, &reference)?;
    Ok(Answers::of(&lines, &told))
}

#[cfg(test)]
mod tests {
    use super::*;
    use crate::counted::Counted;

    #[test]
    fn identifications_and_commands_of_every_kind_come() {
        let mut seen = Answers::default();
        for index in 0..2 {
            let lines = lines_of(Batch { seed: 1, index, lines: 10_000 });
            seen.add(&Answers::of(&lines, &batch::told(&lines, reference::vectors::answer)));
        }
        assert_eq!(seen.identified.not_met(), "", "{}", seen.identified);
        assert_eq!(seen.converted.not_met(), "", "{}", seen.converted);
    }
}
