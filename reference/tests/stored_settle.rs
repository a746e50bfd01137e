//! Stored inputs: the blocks of W lines that the stored lists reach (paper 02, 3/14), each followed from its answers.

mod common;
use common::stored_lists::{followed, stored_list, stored_lists};
use reference::lists::{Call, List};
use reference::{front, Machine, TickAnswer};
use std::collections::BTreeSet;

/// What the ticks of a list have answered.
#[derive(Default)]
struct Met {
    /// Blocks with their 0D, and the lengths lent to their ticks.
    blocks: BTreeSet<Vec<u8>>,
    lent: BTreeSet<u8>,
    /// Numbers of stored starts beside a block, causes of entries beside one, and blocks beside a pulse.
    numbers: BTreeSet<u8>,
    causes: BTreeSet<u8>,
    pulses: u32,
    /// Numbers of ticks that were turned away, with whether the word was over-large and a move ran.
    refused: BTreeSet<(u8, bool, bool)>,
    count: u32,
}

impl Met {
    /// A tick with a block.
    fn block(&mut self, answer: TickAnswer, block: &[u8], lent: u8) {
        self.blocks.insert(block.to_vec());
        self.lent.insert(lent);
        self.numbers.insert(answer.number);
        self.causes.extend(answer.entry.map(|entry| entry.cause));
        self.pulses += u32::from(answer.pulses != [0; 5]);
        self.count += 1;
    }

    fn tick(&mut self, machine: &mut Machine, word: u32, lent: u8) {
        let mut whole = [0; 255];
        let moving = machine.status() & 2 != 0;
        let answer = machine.tick(word, &mut whole[..lent as usize]);
        if answer.number == 2 || answer.number == 3 {
            self.refused.insert((answer.number, word >= 0x0100_0000, moving));
        }
        if answer.len > 0 {
            self.block(answer, front(&whole, answer.len), lent);
        }
    }

    fn play(&mut self, switch: u8, list: &List) {
        let mut machine = Machine::power_on(switch).0;
        for &call in &list.calls {
            match call {
                Call::Byte { byte, lent } => {
                    machine.byte(byte, &mut vec![0; lent as usize]);
                }
                Call::Ticks { count, word } => (0..count).for_each(|_| self.tick(&mut machine, word, 120)),
                Call::Tick { word, lent } => self.tick(&mut machine, word, lent),
                Call::Readings => {}
            }
        }
    }
}

/// The lists of this request, each for all of its switches.
fn met() -> Met {
    let mut met = Met::default();
    for (words, list) in stored_lists() {
        if words.starts_with("Settled inputs") || words.contains("ticks with their buffers") {
            (list.first..=list.last).for_each(|switch| met.play(switch, &list));
        }
    }
    met
}

#[test]
fn stored_lists_reach_every_switch_and_identification() {
    let met = met();
    for switch in "0123456789ABDEF".bytes() {
        let of_switch: Vec<&Vec<u8>> = met.blocks.iter().filter(|block| block[1] == switch).collect();
        assert!(of_switch.iter().any(|block| block.len() == 9));
        for id in "0123456789ABCDEFabcdef".bytes() {
            assert!(of_switch.iter().any(|block| block.len() == 10 && block[8] == id), "{switch} {id}");
        }
    }
    assert!(met.blocks.iter().all(|block| block[0] == b'R' && block[1] != b'C'));
    assert!(met.count > 500, "{}", met.count);
}

#[test]
fn stored_lists_reach_blocks_beside_entries_and_failed_starts() {
    let met = met();
    assert!(met.numbers.iter().copied().eq([0].into_iter().chain(12..=17)));
    assert!(met.causes.iter().eq([0, 1].iter()));
    assert!(met.pulses > 10, "{}", met.pulses);
    assert!([0x78, 0x79, 0x7F, 0x80, 0xFE, 0xFF].iter().all(|lent| met.lent.contains(lent)));
}

#[test]
fn stored_lists_reach_ticks_turned_away_at_rest_and_in_a_move() {
    let mut met = met();
    met.play(8, &stored_list("Ticks turned away by 2 and 3 in a move"));
    for moving in [false, true] {
        for (number, large) in [(2, false), (2, true), (3, true)] {
            assert!(met.refused.contains(&(number, large, moving)), "{number} {large} {moving}");
        }
    }
}

/// Blocks that came in a list, and W lines that took the place of one that was still to come.
fn settled(begins: &str) -> (u32, u32) {
    let settled = followed(&stored_list(begins)).settled;
    (settled.blocks, settled.replaced)
}

#[test]
fn blocks_that_come_and_blocks_that_never_do() {
    assert_eq!(settled("Settled inputs: a query"), (26, 0));
    assert_eq!(settled("Settled inputs: outputs show"), (1, 3));
    assert_eq!(settled("Settled inputs: in the 2,500th"), (3, 0));
    assert_eq!(settled("Settled inputs: a W line takes"), (7, 10));
    assert_eq!(settled("Settled inputs: W lines turned away"), (8, 0));
    assert_eq!(settled("Settled inputs: lines of every other kind"), (25, 0));
    assert_eq!(settled("Settled inputs: everything read"), (1, 0));
    assert_eq!(settled("Settled inputs: ticks turned away"), (1, 0));
    assert_eq!(settled("Settled inputs: the whole buffer"), (12, 0));
    assert_eq!(settled("Settled inputs: the watch"), (3, 0));
}
