//! What a run is asked for, and the items that it comes to.

use crate::batch::Batch;
use crate::list::{self, List};
use crate::pair::Item;

/// The lines of one run of the host end or of the desk.
const BATCH: u64 = 10_000;

/// Sessions, ticks, lines for the host end and for the desk, and previews in all, shared out over the seeds.
#[derive(Clone, Debug)]
pub struct Wish {
    pub sessions: u64,
    pub ticks: u64,
    pub vectors: u64,
    pub words: u64,
    pub previews: u64,
    pub seeds: Vec<u64>,
}

fn number(text: Option<String>) -> Option<u64> {
    text?.replace([',', '_'], "").parse().ok()
}

impl Wish {
    /// The wish that arguments spell; `None` where one is no number.
    pub fn of_arguments(mut given: impl Iterator<Item = String>) -> Option<Wish> {
        let (sessions, ticks, vectors, words, previews) = (2_000, 100_000_000, 1_000_000, 1_000_000, 200);
        let mut wish = Wish { sessions, ticks, vectors, words, previews, seeds: Vec::new() };
        while let Some(one) = given.next() {
            match one.as_str() {
                "--sessions" => wish.sessions = number(given.next())?,
                "--ticks" => wish.ticks = number(given.next())?,
                "--vectors" => wish.vectors = number(given.next())?,
                "--words" => wish.words = number(given.next())?,
                "--previews" => wish.previews = number(given.next())?,
                _ => wish.seeds.push(number(Some(one))?),
            }
        }
        if wish.seeds.is_empty() {
            wish.seeds = vec![1];
        }
        Some(wish)
    }

    /// The seed of an item, and which of the seed's items it is; the seeds take turns.
    fn share(&self, at: u64) -> (u64, u64) {
        let seeds = self.seeds.len() as u64;
        (self.seeds[(at % seeds) as usize], at / seeds)
    }

    /// So many texts.
    fn texts(&self, count: u64) -> Vec<Item> {
        let item = |(seed, index)| Item { seed, index };
        (0..count).map(|at| item(self.share(at))).collect()
    }

    pub fn sessions(&self) -> Vec<Item> {
        self.texts(self.sessions)
    }

    pub fn previews(&self) -> Vec<Item> {
        self.texts(self.previews)
    }

    /// Lists are planned until their ticks add up to the wish; the last one is cut to fit.
    pub fn lists(&self) -> Vec<List> {
        let mut left = self.ticks;
        let mut lists = Vec::new();
        while left > 0 {
            let (seed, index) = self.share(lists.len() as u64);
            let mut list = list::plan(seed, index);
            list.ticks = left.min(list.ticks as u64) as u32;
            left -= list.ticks as u64;
            lists.push(list);
        }
        lists
    }

    /// Batches of so many lines in all; the last one is cut to fit.
    pub fn batches(&self, lines: u64) -> Vec<Batch> {
        let batch = |at| {
            let (seed, index) = self.share(at);
            Batch { seed, index, lines: BATCH.min(lines - at * BATCH) as usize }
        };
        (0..lines.div_ceil(BATCH)).map(batch).collect()
    }
}
