//! Sessions: the same text through the proved bench program and through the reference's.

use crate::bench::Typed;
use crate::coverage::Coverage;
use crate::operator::{Operator, WATCH_OFF};
use crate::pair::{Item, Pair};
use crate::program::{self, Places};
use crate::random::{part, Random};

/// Most sessions are short; one in twenty has time for a full watch.
fn ticks_of(random: &mut Random, index: u64) -> u32 {
    if index % 20 == 19 {
        random.between(1_200_000, 3_500_000)
    } else {
        random.between(500, 60_000)
    }
}

/// The text of a session and what it meets.
pub fn text_of(session: Item) -> (Vec<u8>, Coverage) {
    let mut random = Random::of_item(session.seed, part::SESSION, session.index);
    let mut bench = Typed::new(ticks_of(&mut random, session.index));
    let mut random = Operator::new(random, WATCH_OFF).work(&mut bench);
    bench.finish(&mut random)
}

/// Runs a session on both; what it met, or the difference in words. `name` is a working file of the caller's own.
pub fn compare(places: &Places, session: Item, name: &str) -> Result<Coverage, String> {
    let (text, seen) = text_of(session);
    let file = places.folder.join(name);
    let proved = |text: &[u8]| program::output(&places.bench, &[], &file, text);
    let reference = |text: &[u8]| program::reference_output(reference::bench::run, text);
    let pair = Pair { what: "session", folder: &places.folder, proved: &proved, reference: &reference };
    pair.compare(session, &text, seen.stations.wrong()).map(|()| seen)
}
