//! Previews: sessions with D lines, the same text through the proved program preview and through the reference's.

use crate::bench::Previewed;
use crate::operator::{Operator, WATCH_OFF};
use crate::pair::{Item, Pair};
use crate::program::{self, Places};
use crate::random::{part, Random};
use crate::screens::Screens;

/// Most previews are short; one in forty has time for a full watch.
fn ticks_of(random: &mut Random, index: u64) -> u32 {
    if index % 40 == 39 {
        random.between(1_200_000, 2_000_000)
    } else {
        random.between(500, 40_000)
    }
}

/// The text of a preview and what it meets.
pub fn text_of(preview: Item) -> (Vec<u8>, Screens) {
    let Item { seed, index } = preview;
    let mut random = Random::of_item(seed, part::PREVIEW, index);
    let mut bench = Previewed::new(ticks_of(&mut random, index), Random::of_item(seed, part::SCREENS, index));
    let mut random = Operator::new(random, WATCH_OFF).work(&mut bench);
    bench.finish(&mut random)
}

/// Runs a preview on both; what it met, or the difference in words. `name` is a working file of the caller's own.
pub fn compare(places: &Places, preview: Item, name: &str) -> Result<Screens, String> {
    let (text, seen) = text_of(preview);
    let file = places.folder.join(name);
    let proved = |text: &[u8]| program::output(&places.preview, &[], &file, text);
    let reference = |text: &[u8]| program::output(&places.preview_reference, &[], &file, text);
    let pair = Pair { what: "preview", folder: &places.folder, proved: &proved, reference: &reference };
    pair.compare(preview, &text, seen.seen.stations.wrong()).map(|()| seen)
}
