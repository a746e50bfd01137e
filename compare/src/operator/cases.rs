//! Lines that differ in the case of the identification alone, one behind the other (paper 02, 7/14).

use super::settle::SETTLED;
use super::Operator;
use crate::bench::Bench;
use crate::line;
use reference::machine::INPUT_WORD_END;

impl Operator {
    /// Any order, at times out of range, with a letter and then with the same in the other case, some ticks between.
    pub(super) fn two_cases<B: Bench>(&mut self, bench: &mut B) {
        let out_of_range = self.random.chance(15);
        let order = if out_of_range { line::out_of_range(&mut self.random) } else { self.any_order() };
        let [one, other] = line::in_two_cases(&mut self.random, &order);
        bench.send(&mut self.random, &one);
        if self.random.chance(40) {
            self.run_some(bench, 20);
        }
        bench.send(&mut self.random, &other);
    }

    /// The same of W lines: the second comes before the block of the first and takes its place, or behind it; its own
    /// block mostly comes.
    pub(super) fn settle_in_two_cases<B: Bench>(&mut self, bench: &mut B) {
        let word = self.random.below(INPUT_WORD_END);
        let [one, other] = line::in_two_cases(&mut self.random, &line::outputs(word));
        let early = self.random.below(SETTLED);
        let first = if self.random.chance(50) { early } else { SETTLED };
        bench.send(&mut self.random, &one);
        self.run_calm(bench, first);
        bench.send(&mut self.random, &other);
        let second = self.random.pick(&[SETTLED, SETTLED, SETTLED, SETTLED - 1]);
        self.run_calm(bench, second);
    }
}

#[cfg(test)]
mod tests {
    use crate::counted::Counted;
    use crate::coverage::Coverage;
    use crate::list::{plan, steps_of};
    use crate::pair::Item;
    use crate::{preview, session};

    /// Short sessions and lists.
    #[test]
    fn identifications_of_every_kind_come() {
        let mut seen = Coverage::default();
        let short = (0..200).filter(|index| index % 20 != 19);
        short.for_each(|index| seen.add(&session::text_of(Item { seed: 1, index }).1));
        let lists = (256..300).map(|index| plan(1, index)).filter(|list| list.ticks <= 200_000);
        lists.for_each(|list| seen.add(&steps_of(list).1));
        assert_eq!(seen.identified.not_met(), "", "{}", seen.identified);
    }

    /// The previews of a run.
    #[test]
    fn they_come_in_previews() {
        let mut seen = Coverage::default();
        (0..200).for_each(|index| seen.add(&preview::text_of(Item { seed: 1, index }).1.seen));
        assert_eq!(seen.identified.not_met(), "", "{}", seen.identified);
    }
}
