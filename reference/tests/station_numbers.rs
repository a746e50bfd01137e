//! Paper 02, 8/14: the numbers of MD5230D commands, in their ranges and of any length.

mod common;
use common::station::{becomes, ended, moves, turned_away};
use reference::Command;

#[test]
fn every_speed() {
    for pps in 1..=250_000u32 {
        becomes(&format!("SPD X {pps}"), &[Command::Speed(4 * pps)]);
    }
    turned_away(29, &["SPD X 0", "SPD Y 000", "SPD X 250001", "SPD Y 500000", "SPD X 500001", "SPD X 1000000"]);
}

#[test]
fn distances_about_their_ends() {
    for pulses in (0..524_287).step_by(997).chain([1, 524_286, 524_287]) {
        moves(&format!("INC X {pulses}"), pulses, 0, 0);
        moves(&format!("INC Y -{pulses}"), 0, -pulses, u8::from(pulses > 0));
        moves(&format!("LNI X -{pulses}, Y 524287"), -pulses, 524_287, u8::from(pulses < 524_287));
    }
    for pulses in (524_288..2_000_000).step_by(9_973) {
        for before in ["INC X ", "INC X -", "INC Y ", "INC Y -", "LNI X 0,Y ", "LNI X 524287, Y -"] {
            turned_away(29, &[&format!("{before}{pulses}")]);
        }
        turned_away(29, &[&format!("LNI X {pulses},Y 0"), &format!("LNI X -{pulses},Y {pulses}")]);
    }
}

/// Leading zeros alter nothing, however many; a number with so many zeros behind it is out of range.
#[test]
fn numbers_of_any_length() {
    for length in (0..200).chain([5_000]) {
        let zeros = "0".repeat(length);
        becomes(&format!("SPD X {zeros}250000"), &[Command::Speed(1_000_000)]);
        moves(&format!("INC Y -{zeros}524287"), 0, -524_287, 1);
        moves(&format!("INC X {zeros}7"), 7, 0, 0);
        turned_away(
            29,
            &[&format!("SPD X {zeros}0"), &format!("SPD X {zeros}250001"), &format!("INC X {zeros}524288")],
        );
        turned_away(29, &[&format!("SPD X 1000000{zeros}"), &format!("INC X -1000000{zeros}")]);
        turned_away(29, &[&format!("LNI X 1,Y 600000{zeros}"), &format!("LNI X 600000{zeros}, Y 1")]);
    }
}

/// What so many bits, or two more, take for a small number; each is over both ranges.
#[test]
fn no_number_wraps() {
    for bits in [20, 30, 31, 32, 33, 40, 48, 62, 63, 64, 65, 96, 126] {
        for more in [0, 1, 3, 5, 250_000] {
            let number = (1u128 << bits) + more;
            turned_away(29, &[&format!("SPD X {number}"), &format!("INC X {number}"), &format!("INC Y -{number}")]);
            turned_away(29, &[&format!("LNI X {number},Y 1"), &format!("LNI X 1, Y -{number}")]);
        }
    }
    turned_away(29, &["INC X 18446744073709551619", "INC X 340282366920938463463374607431768211463"]);
}

/// Numbers of many bits are judged as 128 bits have them.
#[test]
fn drawn_numbers() {
    let mut drawn = 1u128;
    for round in 0..20_000 {
        drawn = drawn.wrapping_mul(0x2360_ED05_1FC6_5DA4_4385_DF64_9FCC_F645).wrapping_add(0x5851_F42D_4C95_7F2D);
        let number = drawn >> (round % 128);
        let speed = ended(&format!("SPD Y {number}")).number;
        assert_eq!(speed, if (1..=250_000).contains(&number) { 0 } else { 29 }, "{number}");
        let distance = ended(&format!("INC Y -{number}")).number;
        assert_eq!(distance, if number <= 524_287 { 0 } else { 29 }, "{number}");
    }
}
