//! Stored lists: forms of the lines, what is gathered, digests worked out by hand.

mod common;
use common::programs;
use reference::digest::mix;
use reference::lists::{entry_digest, play, run, Call, List};
use reference::Entry;

/// What the program prints for an input.
fn printed(input: &[u8]) -> String {
    programs::printed(run, input)
}

#[test]
fn the_digest_mixes_three_numbers() {
    // 2 to the 31 less 19, 2 to the 30 less 35, 2 to the 29 less 3, 2 to the 28 less 57.
    assert_eq!(mix(1, 0, 0, 0), 0x7FFF_FFED);
    assert_eq!(mix(0, 1, 0, 0), 0x3FFF_FFDD);
    assert_eq!(mix(0, 0, 1, 0), 0x1FFF_FFFD);
    assert_eq!(mix(0, 0, 0, 1), 0x0FFF_FFC7);
    assert_eq!(mix(0, 4, 0, 0), 0xFFFF_FF74);
    // Minus 38, minus 140, minus 24, minus 912: minus 1,114.
    assert_eq!(mix(2, 4, 8, 16), 0xFFFF_FBA6);
}

#[test]
fn power_on_alone() {
    assert_eq!(printed(b"E\n"), "00 00000000\n");
    assert_eq!(printed(b"S 0B 0D\nE"), "0B 00000000\n0C 3FFFFFDD\n0D 00000000\n");
    assert_eq!(printed(b"S 0F 10\nE\n"), "0F 00000000\n10 3FFFFFDD\n");
    assert_eq!(printed(b"S FF FF\nE\n"), "FF 3FFFFFDD\n");
    assert_eq!(printed(b"S 02 01\nE\n"), "");
    assert_eq!(printed(b"S 00 FF\nE\n").lines().count(), 256);
}

/// The readings of a fresh controller are mixed in: positions 0, status 0, V 10,000, a 16.
fn fresh_readings(digest: u32) -> u32 {
    let axes = (0..5).fold(digest, |digest, axis| mix(digest, 0, 524_288, axis));
    mix(axes, 0, 10_000, 16)
}

#[test]
fn readings_of_a_fresh_controller() {
    assert_eq!(play(0, &[Call::Readings]), fresh_readings(0));
    assert_eq!(printed(b"S 01 01\nR\nE\n"), format!("01 {:08X}\n", fresh_readings(0)));
}

#[test]
fn a_byte_with_a_short_buffer_mixes_in_that_buffer() {
    let refused = mix(0, 0, 2, 0);
    assert_eq!(play(0, &[Call::Byte { byte: b'Q', lent: 0 }]), refused);
    assert_eq!(play(0, &[Call::Byte { byte: b'Q', lent: 1 }]), mix(refused, 0, 0, 0));
    assert_eq!(printed(b"B 0D 01\nE\n"), format!("00 {:08X}\n", mix(refused, 0, 0, 0)));
}

/// A reply of these bytes in a buffer of 120 zero bytes is mixed in.
fn replied(digest: u32, reply: &[u8], number: u32) -> u32 {
    let mut buf = [0; 120];
    buf[..reply.len()].copy_from_slice(reply);
    let digest = mix(digest, reply.len() as u32, number, 0);
    buf.iter().fold(digest, |digest, &byte| mix(digest, byte as u32, 0, 0))
}

#[test]
fn lines_are_bytes_with_120_zero_bytes_lent() {
    let characters = (0..3).fold(0, |digest, _| replied(digest, b"", 0));
    let whole = replied(characters, b"S5600000\r", 0);
    assert_eq!(printed(b"S 05 05\nL Q06\nE\n"), format!("05 {whole:08X}\n"));
    assert_eq!(printed(b"S 05 05\nB 51 78\nB 30 78\nB 36 78\nB 0D 78\nE\n"), format!("05 {whole:08X}\n"));
    let silent = replied(replied(replied(0, b"", 0), b"", 0), b"", 5);
    assert_eq!(printed(b"L X4\nE\n"), format!("00 {silent:08X}\n"));
}

#[test]
fn ticks_mix_in_words_pulses_and_number() {
    assert_eq!(printed(b"T 000000 FFFFFFFF\nE\n"), "00 00000000\n");
    // Number 3 alone: 256 × 3.
    assert_eq!(printed(b"T 000001 01000000\nE\n"), format!("00 {:08X}\n", mix(0, 0, 0, 768)));
    // Switch 8 at rest: 0AAAAA in both halves.
    assert_eq!(play(8, &[Call::Ticks { count: 1, word: 5 }]), mix(0, 0x0A_AAAA, 0x0A_AAAA, 0));
    let two = mix(mix(0, 0, 0, 0), 0, 0, 0);
    assert_eq!(play(0, &[Call::Ticks { count: 2, word: 0 }]), two);
}

/// The digest after lines whose replies are not looked at, found by playing them.
fn after(lines: &str) -> Vec<Call> {
    let mut list = List::default();
    for line in lines.lines() {
        assert_eq!(list.take_line(line.as_bytes()), "");
    }
    list.calls
}

#[test]
fn a_pulse_of_minus_1_is_2() {
    // Axis 0 plus, axes 1 and 4 minus, one pulse each, in tick 156 of a longer move; bits 3 and 9 are directions.
    let setup = "L P0000009\nL P0180009\nL P0480009\nL P08F4240\nL P0900FFF\nL Q080\nT 00009B 00000000";
    let mut calls = after(setup);
    let before = play(0, &calls);
    calls.push(Call::Ticks { count: 1, word: 0 });
    assert_eq!(play(0, &calls), mix(before, 0x30D, 0x208, 1 + 3 * 2 + 81 * 2));
}

#[test]
fn an_entry_mixes_in_its_numbers() {
    // The most ticks: 2 to the 45, less 1, is 8,191 times 2 to the 32 and 2 to the 32, less 1. The longest travels.
    let entry = Entry { ticks: (1 << 45) - 1, cause: 1, travels: [524_287, -524_287, 0, -1, 1] };
    let ticks = mix(7, 0xFFFF_FFFF, 8_191, 1);
    let travels = mix(ticks, 0x8007_FFFF, 0x7FF8_0001, 0x8000_0000);
    assert_eq!(entry_digest(7, &entry), mix(travels, 0x7FFF_FFFF, 0x8000_0001, 0));
    // Any signed number of 32 bits has its place; 2 to the 32 has 0 in its low half.
    let entry = Entry { ticks: 1 << 32, cause: 0, travels: [i32::MIN, i32::MAX, 2, i32::MAX, i32::MIN] };
    let travels = mix(mix(0, 0, 1, 0), 0, 0xFFFF_FFFF, 0x8000_0002);
    assert_eq!(entry_digest(0, &entry), mix(travels, 0xFFFF_FFFF, 0, 0));
    // Only 0 is mixed in but for 4 and 8 in the last three: minus 140, minus 24.
    let entry = Entry { ticks: 0, cause: 0, travels: [i32::MIN, i32::MIN, i32::MIN, i32::MIN + 4, i32::MIN + 8] };
    assert_eq!(entry_digest(0, &entry), 0xFFFF_FF5C);
}

#[test]
fn an_entry_is_mixed_in_before_words_pulses_and_number() {
    // One pulse each of axis 0 plus, axis 1 minus, axis 4 minus, in tick 207, which ends the move.
    let mut calls = after("L P0000001\nL P0180001\nL P0480001\nL P08F4240\nL P0900FFF\nL Q080\nT 0000CE 00000000");
    let before = play(0, &calls);
    calls.push(Call::Ticks { count: 1, word: 0 });
    let travels = mix(mix(before, 207, 0, 0), 0x8000_0001, 0x7FFF_FFFF, 0x8000_0000);
    let entry = mix(travels, 0x8000_0000, 0x7FFF_FFFF, 0);
    assert_eq!(play(0, &calls), mix(entry, 0x30D, 0x208, 1 + 3 * 2 + 81 * 2));
    // Stopped in its first tick: 1 tick, cause 1, no travel, and only directions show. The next tick has no entry.
    let mut calls = after("L P0000001\nL P0180001\nL Q080\nL Q09");
    let travels = mix(mix(play(0, &calls), 1, 0, 1), 0x8000_0000, 0x8000_0000, 0x8000_0000);
    let entry = mix(travels, 0x8000_0000, 0x8000_0000, 0);
    calls.push(Call::Ticks { count: 2, word: 0 });
    assert_eq!(play(0, &calls), mix(mix(entry, 0x008, 0x008, 0), 0x008, 0x008, 0));
}

#[test]
fn lines_in_other_forms() {
    let forms =
        ["S 00", "S 0a 00", "L", "L ", "B 0 78", "B 00 078", "T 1 0", "R ", "E ", "e", " E", "T 000001  00000000"];
    for form in forms {
        assert_eq!(printed(format!("{form}\n").as_bytes()), "?\n", "{form}");
    }
    assert_eq!(printed(b""), "");
    assert_eq!(printed(b"\n\n#\n# S\n"), "");
    assert_eq!(printed(b"S 03 03\nS 04\nE"), "?\n03 00000000\n");
}

#[test]
fn a_line_has_at_most_100_characters() {
    let text = |count: usize| format!("L {}\nE\n", "Q".repeat(count));
    assert_eq!(printed(text(98).as_bytes()).lines().count(), 1);
    assert_eq!(printed(text(99).as_bytes()), "?\n00 00000000\n");
}

#[test]
fn a_list_has_at_most_4096_calls() {
    let mut list = List::default();
    for _ in 0..4_095 {
        assert_eq!(list.take_line(b"R"), "");
    }
    assert_eq!(list.take_line(b"L Q"), "?\n");
    assert_eq!(list.calls.len(), 4_095);
    assert_eq!(list.take_line(b"T 000010 00000000"), "");
    for line in [&b"R"[..], b"B 00 00", b"T 000000 00000000", b"L Q06"] {
        assert_eq!(list.take_line(line), "?\n");
    }
    assert_eq!(list.calls.len(), 4_096);
    assert_eq!(list.take_line(b"S 00 00"), "");
    assert_eq!(list.calls.len(), 0);
}

#[test]
fn a_list_stays_gathered() {
    let once = printed(b"S 00 01\nL P0000001\nE\n");
    assert_eq!(printed(b"S 00 01\nL P0000001\nE\nE\n"), format!("{once}{once}"));
}
