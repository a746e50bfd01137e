//! A bench that keeps what is done as text for the programs preview: D lines are among it.

use super::tried::{start_line, Trying};
use super::{Bench, Stand, Typed};
use crate::random::Random;
use crate::screens::Screens;
use crate::trial::{screen_line, Asked};
use reference::preview;
use reference::Trial;

pub struct Previewed {
    typed: Typed,
    trying: Trying,
    screens: Screens,
}

/// What the bench program answers to most lines that begin with D; they alter nothing.
const NO_LETTER: u8 = 5;

/// One in so many doses that meet the full watch is tried until then; it is seldom on.
const WATCHED: u32 = 4;

/// What reads everything.
const EVERYTHING: &[u8] = b"q08";

impl Previewed {
    /// The last ones are the random numbers of its D lines.
    pub fn new(ticks: u32, trials: Random) -> Previewed {
        Previewed { typed: Typed::new(ticks), trying: Trying::new(trials, WATCHED), screens: Screens::default() }
    }

    /// The text, whose last line is often a D line and may lack its line feed, and what it meets.
    pub fn finish(mut self, random: &mut Random) -> (Vec<u8>, Screens) {
        if random.chance(50) {
            self.ask();
        }
        let (text, seen) = self.typed.finish(random);
        self.screens.whole(&text, seen);
        (text, self.screens)
    }

    /// A line that begins with D, and what it tells if it has the form.
    fn screen(&mut self, line: &[u8]) -> Option<(Asked, Trial)> {
        self.typed.keep(line);
        let preview::Asked { master, ticks, word } = self.screens.line(line)?;
        let asked = Asked { master, word, ticks };
        Some((asked, self.typed.stand.trial(asked)))
    }

    /// A chosen D line.
    fn ask(&mut self) -> Option<(Asked, Trial)> {
        let asked = self.trying.asked(&self.typed.stand);
        let line = screen_line(&mut self.trying.random, asked);
        self.screen(&line)
    }

    /// A D line; at times the very same is then done, and everything is read.
    fn try_out(&mut self, random: &mut Random) {
        let Some((asked, told)) = self.ask() else { return };
        if !self.trying.is_done(&self.typed.stand, asked, told) {
            return;
        }
        self.typed.stand.observed.done();
        self.typed.send(random, &start_line(asked.master));
        if told.number == 0 {
            self.typed.run(random, asked.ticks, asked.word);
        }
        self.typed.send(random, EVERYTHING);
    }
}

impl Bench for Previewed {
    fn stand(&self) -> &Stand {
        &self.typed.stand
    }

    fn stand_mut(&mut self) -> &mut Stand {
        &mut self.typed.stand
    }

    /// A damaged line that begins with D is a D line without the form.
    fn send(&mut self, random: &mut Random, line: &[u8]) -> u8 {
        if self.trying.before_line(&self.typed.stand) {
            self.try_out(random);
        }
        if line.first() == Some(&b'D') {
            self.screen(line);
            return NO_LETTER;
        }
        self.typed.send(random, line)
    }

    fn run(&mut self, random: &mut Random, count: u32, word: u32) {
        if self.trying.before_ticks(&self.typed.stand, word) {
            self.try_out(random);
        }
        self.typed.run(random, count, word);
    }

    fn oddity(&mut self, random: &mut Random) {
        self.typed.oddity(random);
    }
}
