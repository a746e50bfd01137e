//! Stored lists: ticks with their buffers and blocks of W lines in the digest, worked out by hand (paper 02, 3/14).

mod common;
use common::programs;
use reference::digest::mix;
use reference::lists::{play, run, Call, List};

/// What the program prints for an input.
fn printed(input: &str) -> String {
    programs::printed(run, input.as_bytes())
}

/// Bytes are mixed in one by one.
fn bytes(digest: u32, bytes: &[u8]) -> u32 {
    bytes.iter().fold(digest, |digest, &byte| mix(digest, byte as u32, 0, 0))
}

/// A block in a buffer of so many zero bytes.
fn buffer(block: &[u8], lent: usize) -> Vec<u8> {
    let mut buf = vec![0; lent];
    buf[..block.len()].copy_from_slice(block);
    buf
}

/// The calls of some lines.
fn calls(lines: &str) -> Vec<Call> {
    let mut list = List::default();
    for line in lines.lines() {
        assert_eq!(list.take_line(line.as_bytes()), "");
    }
    list.calls
}

#[test]
fn a_tick_with_its_buffer_mixes_in_that_buffer_last() {
    assert_eq!(printed("K 00000005 78\nE\n"), format!("00 {:08X}\n", bytes(mix(0, 0, 0, 0), &[0; 120])));
    // Switch 8 at rest: 0AAAAA in both halves.
    let rest = mix(0, 0x0A_AAAA, 0x0A_AAAA, 0);
    assert_eq!(play(8, &[Call::Tick { word: 5, lent: 255 }]), bytes(rest, &[0; 255]));
    assert_eq!(play(8, &[Call::Ticks { count: 1, word: 5 }]), rest);
}

#[test]
fn number_2_of_a_tick_comes_before_3() {
    // 256 × 2 and 256 × 3.
    assert_eq!(printed("K 00000000 00\nE\n"), format!("00 {:08X}\n", mix(0, 0, 0, 512)));
    assert_eq!(play(8, &[Call::Tick { word: 0, lent: 119 }]), bytes(mix(0, 0, 0, 512), &[0; 119]));
    assert_eq!(play(8, &[Call::Tick { word: 0x0100_0000, lent: 119 }]), bytes(mix(0, 0, 0, 512), &[0; 119]));
    assert_eq!(play(8, &[Call::Tick { word: 0x0100_0000, lent: 120 }]), bytes(mix(0, 0, 0, 768), &[0; 120]));
}

#[test]
fn a_block_is_mixed_in_before_the_words() {
    let mut before = calls("L W0ABCDEF1\nT 0009C3 00000000");
    let digest = play(5, &before);
    let words = mix(bytes(digest, b"R51234561\r"), 0xAB_CC00, 0xAB_CC00, 0);
    before.push(Call::Ticks { count: 1, word: 0x123456 });
    assert_eq!(play(5, &before), words);
    before.pop();
    before.push(Call::Tick { word: 0x123456, lent: 0x79 });
    assert_eq!(play(5, &before), bytes(words, &buffer(b"R51234561\r", 121)));
    // A query has a block of nine bytes, and of a silent line only the words are mixed in.
    let mut query = calls("L W0\nT 0009C3 00000000");
    let digest = play(0, &query);
    query.push(Call::Ticks { count: 1, word: 0xA });
    assert_eq!(play(0, &query), mix(bytes(digest, b"R000000A\r"), 0, 0, 0));
    let mut silent = calls("L W4\nT 0009C3 00000000");
    let digest = play(0, &silent);
    silent.push(Call::Ticks { count: 1, word: 0xA });
    assert_eq!(play(0, &silent), mix(digest, 0, 0, 0));
}

#[test]
fn a_block_is_mixed_in_before_an_entry() {
    // Stopped in its first tick: 1 tick, cause 1, no travel; bit 3 is the direction of axis 1.
    let mut both = calls("L P0000001\nL P0180001\nL W0\nT 0009C3 00000000\nL Q080\nL Q09");
    let block = bytes(play(0, &both), b"R0FEDCBA\r");
    let travels = mix(mix(block, 1, 0, 1), 0x8000_0000, 0x8000_0000, 0x8000_0000);
    let words = mix(mix(travels, 0x8000_0000, 0x8000_0000, 0), 0x008, 0x008, 0);
    both.push(Call::Ticks { count: 1, word: 0xFEDCBA });
    assert_eq!(play(0, &both), words);
    both.pop();
    both.push(Call::Tick { word: 0xFEDCBA, lent: 120 });
    assert_eq!(play(0, &both), bytes(words, &buffer(b"R0FEDCBA\r", 120)));
}

#[test]
fn a_block_and_the_number_of_a_failed_start() {
    // A dwell of 10 ms is 2,500 ticks; the stored start has no distance then: 256 × 15.
    let lines = "L P0000001\nL P0A0000A\nL Q080\nL Q09\nT 000001 00000000\nL Q088\nL P0000000\nL W0\nT 0009C3 00000000";
    let mut both = calls(lines);
    let digest = play(0, &both);
    both.push(Call::Ticks { count: 1, word: 7 });
    assert_eq!(play(0, &both), mix(bytes(digest, b"R0000007\r"), 0, 0, 3_840));
}

#[test]
fn other_forms_of_a_tick_with_its_buffer() {
    let forms = ["K", "K 00000000", "K 0 78", "K 00000000 078", "K 0000000a 78", "k 00000000 78", "K 00000000 78 "];
    for form in forms {
        assert_eq!(printed(&format!("{form}\nE\n")), "?\n00 00000000\n", "{form}");
    }
}

#[test]
fn such_a_tick_is_one_call() {
    let mut list = List::default();
    for _ in 0..4_096 {
        assert_eq!(list.take_line(b"K FFFFFFFF FF"), "");
    }
    assert_eq!(list.take_line(b"K 00000000 78"), "?\n");
    assert_eq!(list.calls, [Call::Tick { word: 0xFFFF_FFFF, lent: 255 }; 4_096]);
}
