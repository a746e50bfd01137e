//! Paper 02, 6/14: what turns a carry-on away: 11, 26, 12, 13, 16, 17 in this order.

mod common;
use common::carried::{end, fast, stopped_at_four, stopped_at_once};
use common::refused::{refused, refused_each};
use common::{accept, number, on, one_tick, send, status_after, ticks, under_way};
use reference::{trial, Entry, Machine};

/// Nothing is left open: 26 with and without an identification, and silent; nothing else is altered.
fn nothing_left(machine: &mut Machine) {
    refused_each(machine, &["Q0C", "Q0C1", "Q0C12345"], 26, "U000001A");
    refused_each(machine, &["Q0C00000A", "Q0CFFFFFA"], 26, "U000001AA");
    refused_each(machine, &["Q4C", "Q4C00000A"], 26, "");
}

#[test]
fn before_any_move() {
    let mut machine = on();
    nothing_left(&mut machine);
    accept(&mut machine, &["P0000005", "Q09", "Q0B"]);
    nothing_left(&mut machine);
    assert_eq!(send(&mut machine, "Q081"), "U000000E");
    nothing_left(&mut machine);
}

#[test]
fn after_a_whole_move() {
    let mut machine = fast(&["P0000005", "P0A00001", "Q080"]);
    assert_eq!(end(&mut machine, 0).cause, 0);
    nothing_left(&mut machine);
    ticks(&mut machine, 300, 0);
    nothing_left(&mut machine);
}

/// The stop has begun, the last pulse still comes: bit 3 stays set, and the move is whole.
#[test]
fn after_a_whole_move_in_which_a_stop_had_begun() {
    let mut machine = fast(&["P0000001", "Q080"]);
    ticks(&mut machine, 206, 0);
    accept(&mut machine, &["Q09"]);
    assert_eq!(one_tick(&mut machine, 0).entry, Some(Entry { ticks: 207, cause: 0, travels: [1, 0, 0, 0, 0] }));
    assert_eq!(machine.status(), 8);
    nothing_left(&mut machine);
}

/// The same of a move that is carried on for its last pulse.
#[test]
fn after_a_carry_on_that_is_whole_though_a_stop_had_begun() {
    let mut machine = stopped_at_four();
    accept(&mut machine, &["Q0C"]);
    ticks(&mut machine, 206, 0);
    accept(&mut machine, &["Q09"]);
    assert_eq!(one_tick(&mut machine, 0).entry, Some(Entry { ticks: 207, cause: 0, travels: [5, 2, -3, 0, 0] }));
    nothing_left(&mut machine);
}

/// The same value, another axis, a silent line, -0 for 0.
#[test]
fn after_an_accepted_distance_line() {
    for line in ["P0000005", "P0000006", "P0100002", "P4280003", "P0300000", "P0480000", "P4400000A", "P0000000"] {
        let mut machine = stopped_at_once();
        accept(&mut machine, &[line]);
        nothing_left(&mut machine);
        accept(&mut machine, &["P0000005", "Q080", "Q09"]);
        end(&mut machine, 0);
        accept(&mut machine, &["Q0C"]);
    }
}

/// Refused lines, other settings, readings, order 9 at rest and a position reset leave the stopped move.
#[test]
fn what_leaves_a_stopped_move() {
    let lines = ["P0800001", "P0900010", "P0A00000", "P0B0", "P0B3", "P0C00FFF", "Q09", "Q49", "Q0A", "Q0B", "Q4B"];
    let readings = ["Q00", "Q06", "q04", "q08000007", "W0", "W0ABCDEF1", "W4", "Q0D00000", "Q0E00000", "P0900FFF"];
    for line in lines.into_iter().chain(readings) {
        let mut machine = stopped_at_once();
        accept(&mut machine, &[line, "Q0C"]);
    }
    let refused =
        ["", "P", "P0000005AA", "X0000005", "P1000005", "P000000G", "P0000005g", "P0500005", "P00", "P000005"];
    for line in refused.into_iter().chain(["P4000", "P0900000", "P08F4241", "Q081", "Q482", "Q085", "Q08", "Q089"]) {
        let mut machine = stopped_at_once();
        assert_ne!(number(&mut machine, line), 0, "{line}");
        accept(&mut machine, &["Q0C"]);
    }
}

/// Bytes of a distance line that are not taken (2), a half-received one, and a trial.
#[test]
fn bytes_and_trials() {
    let mut machine = stopped_at_once();
    b"P0000005".iter().for_each(|&byte| assert_eq!(machine.byte(byte, &mut [0; 120]).number, 0));
    assert_eq!(machine.byte(0x0D, &mut [0; 119]).number, 2);
    assert_eq!(trial(&machine, 0, 0, 10_000).travels, [5, 2, 3, 0, 0]);
    let mut other = machine.clone();
    accept(&mut machine, &[""]);
    assert_eq!(number(&mut machine, "Q0C"), 26);
    assert_eq!(number(&mut other, "G"), 7);
    accept(&mut other, &["Q0C"]);
}

/// Another start that took effect begins the latest move; one that is turned away leaves the one before.
#[test]
fn after_another_start() {
    let mut machine = stopped_at_four();
    accept(&mut machine, &["Q080"]);
    refused_each(&mut machine, &["Q0C"], 11, "U000000B");
    assert_eq!(end(&mut machine, 0), Entry { ticks: 480, cause: 0, travels: [5, 2, -3, 0, 0] });
    nothing_left(&mut machine);
    accept(&mut machine, &["Q080", "Q09"]);
    end(&mut machine, 0);
    accept(&mut machine, &["Q0C"]);
    assert_eq!(end(&mut machine, 0), Entry { ticks: 480, cause: 0, travels: [5, 2, -3, 0, 0] });
}

#[test]
fn number_11_in_every_move() {
    let mut machine = under_way(0);
    refused_each(&mut machine, &["Q0C", "Q0CABC"], 11, "U000000B");
    accept(&mut machine, &["Q09"]);
    refused_each(&mut machine, &["Q0C00000F"], 11, "U000000BF");
    end(&mut machine, 0);
    accept(&mut machine, &["Q0C"]);
    refused_each(&mut machine, &["Q0C"], 11, "U000000B");
}

/// All causes at once, taken away one by one: 26 before 12 where nothing is open; 12, 13 and 16 where something is.
#[test]
fn the_order() {
    for (open, mut machine) in [(false, fast(&["P0000005"])), (true, stopped_at_once())] {
        accept(&mut machine, &["Q0E03001"]);
        for (word, number) in [(0x3001, 12), (0x2001, 12), (0x2001, 13), (1, 16), (0, 0)] {
            one_tick(&mut machine, word);
            if number != 12 {
                accept(&mut machine, &["Q0B"]);
            }
            let expected = if open { number } else { 26 };
            let reply = if expected == 0 { "S0C00000".to_string() } else { format!("U00000{expected:02X}") };
            assert_eq!(send(&mut machine, "Q0C"), reply, "{word:X}");
        }
    }
}

/// 16: each limit of an axis with an open distance, in its direction; none of an axis of distance 0.
#[test]
fn number_16() {
    for (setting, word) in [("Q0E00001", 1), ("Q0D00002", 0), ("Q0E00004", 4), ("Q0D00010", 0), ("Q0E00020", 0x20)] {
        let mut machine = stopped_at_four();
        one_tick(&mut machine, word);
        accept(&mut machine, &[setting]);
        let mut expected = machine.clone();
        assert_eq!(send(&mut machine, "Q0C00000A"), "U0000010A", "{setting}");
        accept(&mut expected, &["Q46"]);
        assert_eq!(machine, expected);
        assert_eq!(status_after(&mut machine, 1, word), 0x18);
        one_tick(&mut machine, !word & 0xFF_FFFF);
        accept(&mut machine, &["Q0C"]);
    }
    let mut machine = stopped_at_four();
    accept(&mut machine, &["Q0D003C0", "Q0E003C0", "Q0C"]);
}

/// 17 over the open distances: the whole ones would be out of range at both ends.
#[test]
fn number_17_never_strikes() {
    for line in ["P007FFFF", "P00FFFFF"] {
        let mut machine = fast(&[line, "Q080"]);
        ticks(&mut machine, 2_000, 0);
        accept(&mut machine, &["Q09"]);
        end(&mut machine, 0);
        assert_eq!(machine.positions()[0].abs(), 327);
        assert_eq!(refused(&mut machine, b"Q080", 17), "U0000011");
        assert_eq!(send(&mut machine, "Q0C"), "S0C00000");
        let entry = end(&mut machine, 0);
        assert_eq!((entry.cause, entry.travels[0].abs()), (0, 524_287));
    }
}
