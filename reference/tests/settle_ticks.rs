//! Paper 02, 3/14: the tick that has the block of a W line, its lent buffer, and what else it answers.

mod common;
use common::blocks::{block, block_in, no_block};
use common::{accept, in_dwell, on, one_tick, ticks, under_way};
use reference::{front, read_block, Block, Digit, Entry, Machine, Reading};

#[test]
fn ticks_turned_away_by_2_or_3_do_not_count() {
    let mut machine = on();
    accept(&mut machine, &["W0"]);
    for _ in 0..2_499 {
        for (word, lent, number) in [(1, 119, 2), (1, 0, 2), (0x0100_0000, 120, 3), (u32::MAX, 119, 2)] {
            let answer = machine.tick(word, &mut vec![0; lent]);
            assert_eq!((answer.number, answer.len), (number, 0));
        }
        assert_eq!(block(&mut machine, 2), "");
    }
    assert_eq!(block_in(&mut machine, 3, 119), "");
    assert_eq!(block(&mut machine, 0x0100_0003), "");
    assert_eq!(block(&mut machine, 4), "R0000004\n");
}

#[test]
fn bytes_behind_the_block_keep_their_values() {
    for lent in [120, 121, 255, 4_096] {
        for (text, shown) in [("W0", "R0000006\n"), ("W0FFFFFF8", "R00000068\n")] {
            let mut machine = on();
            accept(&mut machine, &[text]);
            ticks(&mut machine, 2_499, 0);
            assert_eq!(block_in(&mut machine, 6, lent), shown);
        }
    }
}

/// One tick with 120 bytes lent: its number, its entry and its block, 0D as a line feed.
fn answered(machine: &mut Machine, word: u32) -> (u8, Option<Entry>, String) {
    let mut buf = [0; 120];
    let answer = machine.tick(word, &mut buf);
    let block = String::from_utf8(front(&buf, answer.len).to_vec()).unwrap();
    (answer.number, answer.entry, block.replace('\r', "\n"))
}

/// A fast move of one pulse ends in its tick 207: it begins after 2,293 ticks, so that this is the 2,500th.
#[test]
fn a_block_and_an_entry_in_one_tick() {
    for (before, at_end) in [(2_292, ""), (2_293, "R0000040D\n"), (2_294, "")] {
        let mut machine = on();
        accept(&mut machine, &["P0000001", "P0180001", "P08F4240", "P0900FFF", "W0ABCDEFD"]);
        no_block(&mut machine, before, 0);
        accept(&mut machine, &["Q080"]);
        for tick in 1..=206 {
            let shown = if before + tick == 2_500 { "R0000030D\n" } else { "" };
            assert_eq!(answered(&mut machine, 0x30), (0, None, shown.to_string()));
        }
        let entry = Entry { ticks: 207, cause: 0, travels: [1, -1, 0, 0, 0] };
        assert_eq!(answered(&mut machine, 0x40), (0, Some(entry), at_end.to_string()));
        let after = if before == 2_292 { "R0000050D\n" } else { "" };
        assert_eq!(answered(&mut machine, 0x50), (0, None, after.to_string()));
    }
}

/// A line, the word of the last tick and the number by which the stored start of master 0 fails in it.
const FAILING: [(&str, u32, u8); 6] = [
    ("Q0E01000", 0x1000, 12),
    ("Q0E02000", 0x2000, 13),
    ("P0200004", 0, 14),
    ("P0000000", 0, 15),
    ("Q0E00001", 1, 16),
    ("P007FFFF", 0, 17),
];

/// A dwell of 11 ms, 2,750 ticks, of which 250 are over before the W line.
#[test]
fn a_block_and_the_number_of_a_failed_start_in_one_tick() {
    for (line, word, number) in FAILING {
        let mut machine = in_dwell();
        accept(&mut machine, &["P0A0000B", "Q080"]);
        while machine.status() & 2 != 0 {
            one_tick(&mut machine, 0);
        }
        ticks(&mut machine, 250, 0);
        accept(&mut machine, &["Q088", line, "W0"]);
        no_block(&mut machine, 2_499, 0);
        assert_eq!(answered(&mut machine, word), (number, None, format!("R0{word:06X}\n")));
        assert_eq!(answered(&mut machine, word), (0, None, String::new()));
    }
}

/// The same dwell; the stored start begins in the tick of the block and is not stopped.
#[test]
fn a_block_in_the_tick_in_which_a_stored_start_begins() {
    let mut machine = in_dwell();
    accept(&mut machine, &["P0A0000B", "Q080"]);
    while machine.status() & 2 != 0 {
        one_tick(&mut machine, 0);
    }
    ticks(&mut machine, 250, 0);
    accept(&mut machine, &["Q088", "W0FFFFFF0"]);
    no_block(&mut machine, 2_499, 0);
    assert_eq!(answered(&mut machine, 9), (0, None, "R00000090\n".to_string()));
    assert_eq!(machine.status(), 3);
}

/// A W line zeroes the watch count; the tick of its block does not, and the outputs are cleared 997,500 ticks later.
#[test]
fn the_watch_counts_from_the_line() {
    let mut machine = on();
    accept(&mut machine, &["P0B2", "W0FFFFFF"]);
    ticks(&mut machine, 2_499, 0);
    assert_eq!(block(&mut machine, 1), "R0000001\n");
    ticks(&mut machine, 997_498, 0);
    assert_eq!(one_tick(&mut machine, 0).words, [0xFFFC00; 2]);
    assert_eq!(one_tick(&mut machine, 0).words, [0; 2]);
}

/// A query, so that no output differs; the line beside it zeroes the watch count as the query does.
#[test]
fn a_move_takes_nothing_of_it() {
    let (mut with, mut without) = (under_way(0), under_way(0));
    accept(&mut with, &["W0"]);
    accept(&mut without, &["Q46"]);
    let mut blocks = Vec::new();
    while without.status() & 2 != 0 {
        let mut buf = [0; 120];
        let answer = with.tick(7, &mut buf);
        let other = one_tick(&mut without, 7);
        assert_eq!((answer.pulses, answer.words, answer.entry), (other.pulses, other.words, other.entry));
        blocks.extend_from_slice(front(&buf, answer.len));
    }
    assert_eq!(blocks, b"R0000007\r");
    assert_eq!(with, without);
}

#[test]
fn the_reader_reads_it_back() {
    let mut machine = Machine::power_on(0xE).0;
    accept(&mut machine, &["W0000000C"]);
    ticks(&mut machine, 2_499, 0);
    let mut buf = [0; 120];
    let answer = machine.tick(0x9ABCDE, &mut buf);
    let reading = Reading::Inputs { word: 0x9ABCDE };
    let identification = Digit::read(b'C');
    assert_eq!(read_block(front(&buf, answer.len)), Ok(Block { switch: 0xE, reading, identification }));
}
