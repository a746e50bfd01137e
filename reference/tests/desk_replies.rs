//! Desk: reply blocks in words, and the five sums.

use reference::desk::{answer, SENTENCES};

/// What 20 prints.
const NO_BLOCK: &str = "turned away by 20: this is no reply block\n";

/// Lines and what each prints, without its line feed.
fn told(pairs: &[(&str, &str)]) {
    for (line, printed) in pairs {
        assert_eq!(answer(line.as_bytes()), format!("{printed}\n"), "{line}");
    }
}

/// Lines that are no block.
fn no_blocks(lines: &[&str]) {
    for line in lines {
        assert_eq!(answer(line.as_bytes()), NO_BLOCK, "{line}");
    }
}

#[test]
fn every_answer() {
    for number in 0..=255usize {
        let line = format!("U00000{number:02X}");
        let expected = match number {
            0 => "accepted\n".to_string(),
            4..=17 | 26 => format!("turned away by {number}: {}\n", SENTENCES[number - 1]),
            _ => NO_BLOCK.to_string(),
        };
        assert_eq!(answer(line.as_bytes()), expected);
        if matches!(number, 0 | 8..=17 | 26) {
            for id in ["C", "c"] {
                let marked = format!("{} (as {id})\n", expected.trim_end());
                assert_eq!(answer(format!("{line}{id}").as_bytes()), marked);
            }
        } else {
            no_blocks(&[&format!("{line}C"), &format!("{line}c")]);
        }
    }
}

#[test]
fn counters() {
    told(&[
        ("S0080000", "travel 0 minus 0"),
        ("S01FFFFF", "travel 1 minus 524287"),
        ("S047FFFF", "travel 4 plus 524287"),
    ]);
    told(&[("s0000000", "position 0 0"), ("s0180000", "position 1 -524288"), ("s047FFFF", "position 4 524287")]);
    told(&[("R0ABCDEF7", "inputs ABCDEF (as 7)"), ("RFFFFFFF", "inputs FFFFFF (switch F)")]);
}

#[test]
fn every_status() {
    let others = ["wrong master", "stopped by order, limit or watch", "an axis is blocked", "emergency is held"];
    for status in 0..=127usize {
        let first = ["at rest", "dwell", "moving", "moving"][status % 4];
        let mut words = vec![format!("status {status}: {first}")];
        words.extend((2..6).filter(|bit| status >> bit & 1 == 1).map(|bit| others[bit - 2].to_string()));
        words.extend((status >= 64).then(|| "stopped by the sensor".to_string()));
        assert_eq!(answer(format!("S0{:06X}", 0x600000 + status).as_bytes()), words.join(", ") + "\n");
    }
    no_blocks(&["S0600080", "S06000FF", "S0680000"]);
}

#[test]
fn echoes() {
    for master in 0..5 {
        told(&[(&format!("S08{master}0000"), &format!("accepted: start {master}"))]);
        told(&[(&format!("S08{:X}FFFF", master + 8), &format!("accepted: start {master} after dwell"))]);
    }
    told(&[("S09FFFFF", "accepted: stop"), ("S0A12345F", "accepted: clear (as F)"), ("S0BABCDE", "accepted: reset")]);
    told(&[("S0C00000", "accepted: carry on"), ("S0CFFFFFE", "accepted: carry on (as E)")]);
    told(&[("S9C12345", "accepted: carry on (switch 9)")]);
    told(&[("S0D033FF", "accepted: low 0033FF"), ("S0E02001", "accepted: high 002001")]);
    told(&[("SFE00000", "accepted: high 000000 (switch F)"), ("SB900000B", "accepted: stop (switch B) (as B)")]);
}

#[test]
fn every_switch_digit() {
    for switch in 0..16u8 {
        let expected = match switch {
            0 => "accepted\n".to_string(),
            12 => NO_BLOCK.to_string(),
            _ => format!("accepted (switch {switch:X})\n"),
        };
        assert_eq!(answer(format!("U{switch:X}000000").as_bytes()), expected);
    }
}

#[test]
fn lines_that_begin_as_a_block_and_are_none() {
    no_blocks(&["U0", "U000000", "U00000000A", "U0000000g", "U0000000 ", "U0000000 as A", "U000000e", "U0000001"]);
    no_blocks(&[
        "S0500000", "S0700000", "S0c00000", "S0F00000", "S0850000", "S08D0000", "S0D00400", "S0E04000", "S0b00000",
    ]);
    no_blocks(&["s0500000", "s0600000", "s00fffff", "R000000", "R0abcdef", "RC000000", "RESET", "SEED", "U0000000\r"]);
    no_blocks(&[&format!("U{}", "0".repeat(98))]);
}

#[test]
fn lines_that_do_not_begin_as_a_block() {
    for line in ["U", "Ua000000", "U 000000", "UG000000", "u0000000", " U0000000"] {
        assert!(answer(line.as_bytes()).starts_with("? start, travel"), "{line}");
    }
    told(&[("Sa600000", "? start 0, start 0 after dwell"), ("r0000012", "? reset"), ("P0B0", "? position 1")]);
    assert!(answer(format!("U{}", "0".repeat(99)).as_bytes()).starts_with("? start, travel"));
}

#[test]
fn sums() {
    for sums in ["0 0 0 0 0", "193895 36982 -36982 0 0", "-0 00 -00 007 -007", "99999999999999999999 0 0 0 -1"] {
        told(&[(sums, &format!("pulses {sums}"))]);
    }
    let longest = format!("{} 0 0 0 0", "1".repeat(91));
    told(&[(&longest, &format!("pulses {longest}"))]);
}

#[test]
fn lines_that_are_no_sums() {
    let none =
        ["0 0 0 0", "0 0 0 0 0 0", " 0 0 0 0 0", "0 0 0 0 0 ", "0 0  0 0 0", "- 0 0 0 0", "+1 0 0 0 0", "1.0 0 0 0 0"];
    for line in none.into_iter().chain(["A 0 0 0 0", "--1 0 0 0 0", "0\t0\t0\t0\t0", "0 0 0 0 0\r", "0 0 0 0 0 as A"]) {
        assert!(answer(line.as_bytes()).starts_with("? start, travel"), "{line}");
    }
    assert!(answer(format!("{} 0 0 0 0", "1".repeat(92)).as_bytes()).starts_with("? start, travel"));
}
