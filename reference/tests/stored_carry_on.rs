//! Stored inputs: the carry-ons that the stored lists and the stored session reach, each followed from its answers.

mod common;
use common::followed::{Followed, Move};
use common::stored_lists::stored_lists;
use reference::bench::{opened, read_tick_line};
use reference::lists::{Call, List};
use reference::{Entry, Machine};
use std::collections::{BTreeMap, BTreeSet};
use std::fs;

/// What carry-ons came to.
#[derive(Default)]
struct Met {
    /// How often each number answered a carry-on, told by whether the line was silent.
    numbers: BTreeMap<(u8, bool), u32>,
    /// Status bits before carry-ons that were accepted, and whether a start waited in a dwell.
    status: BTreeSet<u32>,
    /// Accepted carry-ons by the master's travel: none yet, or some.
    travelled: BTreeSet<bool>,
    ended: Vec<(Move, Entry)>,
}

/// Whether a line asks for a carry-on.
fn is_carry_on(line: &[u8]) -> bool {
    matches!(line, [b'Q', b'0' | b'4', b'C' | b'c', ..])
}

impl Met {
    /// One line, without its 0D.
    fn line(&mut self, machine: &mut Machine, followed: &mut Followed, line: &[u8]) {
        let (status, travels) = (machine.status(), machine.travels());
        line.iter().for_each(|&byte| _ = followed.byte(machine, byte, 120));
        let number = followed.byte(machine, 0x0D, 120);
        if is_carry_on(line) {
            *self.numbers.entry((number, line[1] == b'4')).or_default() += 1;
            if number == 0 {
                self.status.insert(status);
                self.travelled.insert(travels != [0; 5]);
            }
        }
    }

    /// A list, whose lines are told by their 0D.
    fn list(&mut self, list: &List) {
        let mut machine = Machine::power_on(list.first).0;
        let (mut followed, mut line) = (Followed::default(), Vec::new());
        for &call in &list.calls {
            match call {
                Call::Byte { byte: 0x0D, lent: 120 } => {
                    self.line(&mut machine, &mut followed, &std::mem::take(&mut line))
                }
                Call::Byte { byte, lent } if lent >= 120 => line.push(byte),
                Call::Byte { .. } | Call::Readings => {}
                Call::Ticks { count, word } => (0..count).for_each(|_| followed.tick(&mut machine, word, 120)),
                Call::Tick { word, lent } => followed.tick(&mut machine, word, lent as usize),
            }
        }
        self.ended.extend(followed.ended);
    }

    /// How many ends have this of them.
    fn count(&self, has: impl Fn(&Move, &Entry) -> bool) -> usize {
        self.ended.iter().filter(|(ended, entry)| has(ended, entry)).count()
    }

    /// All numbers but 17, which strikes no carry-on; causes by their status bits; m = 0 and more; whole and stopped
    /// ends, those of one tick, of moves carried on often, and whole ones in which a stop had begun.
    fn reaches_all(&self) {
        for number in [0, 11, 26] {
            assert!(self.numbers[&(number, false)] > 10 && self.numbers[&(number, true)] > 0, "{number}");
        }
        for number in [4, 7, 12, 13, 16] {
            assert!(self.numbers[&(number, false)] > 0, "{number}");
        }
        assert!([8, 9, 0x40, 0x48, 0].iter().all(|status| self.status.contains(status)), "{:?}", self.status);
        assert!(!self.numbers.contains_key(&(17, false)) && self.travelled.len() == 2);
        assert!(self.count(|ended, entry| ended.carried > 0 && entry.cause == 0) > 20);
        assert!(self.count(|ended, entry| ended.carried > 0 && entry.cause == 1 && entry.travels != [0; 5]) > 20);
        assert!(self.count(|ended, entry| ended.carried > 0 && entry.ticks == 1 && entry.travels != [0; 5]) > 3);
        assert!(self.count(|ended, entry| ended.carried > 0 && ended.stop_begun && entry.cause == 0) > 1);
        assert!(self.count(|ended, entry| ended.carried > 4 && entry.cause == 0) > 2);
        let longest = |entry: &Entry| entry.travels[0] == 524_287 && entry.travels[2] == -99_999;
        assert!(self.count(|ended, entry| ended.carried > 4 && longest(entry)) > 0);
    }
}

#[test]
fn the_stored_lists() {
    let mut met = Met::default();
    let lists = stored_lists();
    let carried = lists.iter().filter(|(words, _)| words.to_lowercase().contains("carr"));
    carried.for_each(|(_, list)| met.list(list));
    met.reaches_all();
    assert!(met.count(|ended, entry| ended.carried > 0 && ended.stored && entry.cause == 0) > 3);
    assert!(met.count(|ended, _| ended.carried > 0 && ended.refused_ticks > 0) > 2);
    let masters: BTreeSet<usize> =
        met.ended.iter().filter(|(ended, _)| ended.carried > 0).map(|(e, _)| e.master).collect();
    assert_eq!(Vec::from_iter(masters), [0, 1, 2, 3, 4]);
}

#[test]
fn the_stored_session() {
    let session = fs::read(concat!(env!("CARGO_MANIFEST_DIR"), "/../crates/vectors/data/carry.in")).unwrap();
    let (mut met, mut machine, mut followed) = (Met::default(), opened(), Followed::default());
    let mut all_ticks = 0;
    for line in session.split(|&byte| byte == b'\n').filter(|line| line != b"T 0 000000") {
        match read_tick_line(line) {
            Some((ticks, word)) => {
                (0..ticks).for_each(|_| followed.tick(&mut machine, word, 120));
                all_ticks += ticks;
            }
            None => met.line(&mut machine, &mut followed, line),
        }
    }
    met.ended = followed.ended;
    met.reaches_all();
    assert!(met.count(|ended, entry| ended.carried > 0 && ended.stored && entry.ticks == 207) > 0);
    assert!((5_000_000..20_000_000).contains(&all_ticks), "{all_ticks}");
}
