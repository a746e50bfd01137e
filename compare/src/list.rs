//! Call lists with trials: the same steps through the libraries and through the reference machine, one by one.

mod both;

use crate::bench::Called;
use crate::coverage::Coverage;
use crate::operator::{Operator, POWER_ON_WATCH, WATCH_OFF};
use crate::random::{part, Random};
use crate::step::Step;
use both::Both;
use std::fmt::Write;
use std::fs;
use std::path::Path;

/// One list of a seed with its switch and its ticks.
#[derive(Clone, Copy, Debug)]
pub struct List {
    pub seed: u64,
    pub index: u64,
    pub switch: u8,
    pub ticks: u32,
}

/// Each seed's first 256 lists are short and take every switch once; later ones have mostly 0 to 15 and any length.
pub fn plan(seed: u64, index: u64) -> List {
    let mut random = Random::of_item(seed, part::LIST, index);
    if index < 256 {
        return List { seed, index, switch: index as u8, ticks: 12_000 };
    }
    let switch = if random.chance(90) { random.below(16) } else { random.below(256) } as u8;
    let ticks = if random.chance(12) { random.between(1_200_000, 5_000_000) } else { random.between(2_000, 200_000) };
    List { seed, index, switch, ticks }
}

/// The steps of a list and what they meet. About half of the lists begin with the host's first line.
pub fn steps_of(list: List) -> (Vec<Step>, Coverage) {
    let mut random = Random::of_item(list.seed, part::CALLS, list.index);
    let mut bench = Called::new(list.switch, list.ticks, Random::of_item(list.seed, part::TRIALS, list.index));
    let watch = if random.chance(50) && bench.turn_watch_off(&mut random) { WATCH_OFF } else { POWER_ON_WATCH };
    Operator::new(random, watch).work(&mut bench);
    bench.finish()
}

/// The first difference: the steps until there, of ticks the last one alone counted, and both answers in words.
fn first_difference(switch: u8, steps: &[Step]) -> Option<(Vec<Step>, String)> {
    let mut both = match Both::power_on(switch) {
        Ok(both) => both,
        Err(words) => return Some((Vec::new(), words)),
    };
    for (at, &step) in steps.iter().enumerate() {
        for time in 1..=step.times() {
            if let Err(words) = both.step(step) {
                return Some(([&steps[..at], &[step.done(time)]].concat(), words));
            }
        }
    }
    both.read_back().err().map(|words| (steps.to_vec(), words))
}

/// Every step in words, one to a line.
fn spelled(switch: u8, steps: &[Step]) -> String {
    let mut text = format!("power-on with switch {switch}\n");
    for step in steps {
        let _ = writeln!(text, "{step}");
    }
    text
}

/// Runs a list on both; what it met, or the difference in words, its steps kept in a file.
pub fn compare(folder: &Path, list: List) -> Result<Coverage, String> {
    let List { seed, index, switch, .. } = list;
    let (steps, seen) = steps_of(list);
    let wrong = || seen.stations.wrong().map(|words| (steps.clone(), format!("both answer the same: {words}\n")));
    let Some((until, words)) = first_difference(switch, &steps).or_else(wrong) else { return Ok(seen) };
    let file = folder.join(format!("list-{seed}-{index}.txt"));
    fs::write(&file, spelled(switch, &until)).expect("the list is written");
    let last = until.last().map_or(String::new(), |step| format!("last call: {step}\n"));
    let place = format!("{} calls until there, in {}", until.len(), file.display());
    Err(format!("DIFFERENCE: seed {seed}, list {index}, switch {switch}\n{place}\n{last}{words}"))
}
