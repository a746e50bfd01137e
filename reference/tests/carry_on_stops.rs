//! Paper 02, 6/14: moves that each cause stopped, dwells and stored starts between, and the watch.

mod common;
use common::carried::{end, fast, stopped_after, stopped_at_four};
use common::stopped::stop_by_inputs;
use common::{accept, number, one_tick, send, status_after, ticks};
use reference::{Entry, Machine};

/// The move of 1,000 and minus 400 is carried on to its whole end, whatever stopped it.
fn carried_to_the_end(machine: &mut Machine, word: u32) {
    let before = machine.travels();
    assert_eq!(send(machine, "Q0C"), "S0C00000");
    assert_eq!((machine.status(), machine.travels()), (3, before));
    let entry = end(machine, word);
    assert_eq!((entry.cause, entry.travels), (0, [1_000, -400, 0, 0, 0]));
    assert_eq!((machine.status(), machine.positions()), (0, [1_000, -400, 0, 0, 0]));
}

#[test]
fn limit_and_sensor() {
    for (setting, free, stopping, bit) in [
        ("Q0E00001", 0, 1, 0x18),
        ("Q0D00004", 4, 0, 0x18),
        ("Q0E02000", 0, 0x2000, 0x40),
        ("Q0D02000", 0x2000, 0, 0x40),
    ] {
        let mut machine = stop_by_inputs(setting, free, stopping, 3 | bit, bit & 0x48);
        carried_to_the_end(&mut machine, free);
    }
}

/// The hold has to be freed by Q B first, with its input inactive; that zeroes the positions.
#[test]
fn emergency() {
    let mut machine = stop_by_inputs("Q0E01000", 0, 0x1000, 0x23, 0x20);
    let positions = machine.positions();
    assert_eq!(send(&mut machine, "Q0C00000E"), "U000000CE");
    one_tick(&mut machine, 0x1000);
    accept(&mut machine, &["Q0B"]);
    assert_eq!(send(&mut machine, "Q0C"), "U000000C");
    one_tick(&mut machine, 0);
    assert_eq!(send(&mut machine, "Q0C"), "U000000C");
    accept(&mut machine, &["Q0B", "Q0C"]);
    let entry = end(&mut machine, 0);
    assert_eq!((entry.cause, entry.travels), (0, [1_000, -400, 0, 0, 0]));
    assert_eq!(machine.positions(), [1_000 - positions[0], -400 - positions[1], 0, 0, 0]);
}

/// The carry-on zeroes the count that had stopped the move, and 1,000,000 ticks later it is stopped again.
#[test]
fn watch() {
    let mut machine = fast(&["P0000003", "P0180002", "P0800001", "P0B1", "Q080"]);
    assert_eq!(end(&mut machine, 0), Entry { ticks: 1_000_000, cause: 1, travels: [0; 5] });
    assert_eq!(status_after(&mut machine, 1, 0), 8);
    accept(&mut machine, &["Q0C"]);
    assert_eq!(end(&mut machine, 0), Entry { ticks: 1_000_000, cause: 1, travels: [0; 5] });
    accept(&mut machine, &["P0B0", "Q0C"]);
    assert_eq!(ticks(&mut machine, 1_000_000, 0), [1, 0, 0, 0, 0]);
}

/// Watch bit 1 clears the outputs 1,000,000 ticks after a carry-on that 26 turned away, and not before.
#[test]
fn a_carry_on_turned_away_by_26_zeroes_the_watch_count() {
    let mut machine = fast(&["P0B2", "W0FFFC00"]);
    for line in ["Q0C", "Q4C", "Q0C12345B"] {
        ticks(&mut machine, 999_999, 0);
        assert_eq!(number(&mut machine, line), 26);
    }
    ticks(&mut machine, 999_999, 0);
    assert_eq!(one_tick(&mut machine, 0).words, [0, 0]);
    let mut machine = fast(&["P0B2", "W0FFFC00"]);
    ticks(&mut machine, 999_999, 0);
    assert_eq!(number(&mut machine, "Q0F"), 8);
    assert_eq!(one_tick(&mut machine, 0).words, [0, 0]);
}

/// A running dwell ends, so that nothing waits for its end.
#[test]
fn a_dwell_ends_and_a_stored_start_is_dropped() {
    for stored in [None, Some("Q088"), Some("Q08C")] {
        let mut machine = fast(&["P0000005", "P0100002", "P0280003", "P0A00001", "Q080"]);
        stopped_after(&mut machine, 300);
        assert_eq!(machine.status(), 9);
        accept(&mut machine, stored.as_slice());
        assert_eq!(status_after(&mut machine, 100, 0), 9);
        accept(&mut machine, &["Q0C"]);
        assert_eq!(machine.status(), 3);
        assert_eq!(end(&mut machine, 0), Entry { ticks: 207, cause: 0, travels: [5, 2, -3, 0, 0] });
        assert_eq!(status_after(&mut machine, 249, 0), 1);
        assert_eq!(status_after(&mut machine, 600, 0), 0);
        assert_eq!(machine.travels()[0], 5);
    }
}

/// Turned away by 13, the carry-on leaves dwell and stored start; that one begins a move of its own.
#[test]
fn a_refused_carry_on_leaves_dwell_and_stored_start() {
    let mut machine = fast(&["P0000005", "P0100002", "P0280003", "P0A00001", "Q080"]);
    stopped_after(&mut machine, 300);
    accept(&mut machine, &["Q088", "Q0D02000"]);
    assert_eq!(send(&mut machine, "Q0C"), "U000000D");
    assert_eq!(status_after(&mut machine, 249, 0x2000), 9);
    assert_eq!(status_after(&mut machine, 1, 0x2000), 3);
    assert_eq!(machine.travels(), [0; 5]);
    assert_eq!(end(&mut machine, 0x2000), Entry { ticks: 480, cause: 0, travels: [5, 2, -3, 0, 0] });
    assert_eq!(number(&mut machine, "Q0C"), 26);
}

/// A stored start that fails as the dwell runs out has taken no effect; one that took effect is the latest move.
#[test]
fn stored_starts_that_fail_and_that_begin() {
    let mut machine = stopped_at_four();
    accept(&mut machine, &["P0A00001", "Q0C", "Q09"]);
    end(&mut machine, 0);
    accept(&mut machine, &["Q089"]);
    ticks(&mut machine, 249, 0);
    assert_eq!(one_tick(&mut machine, 0).number, 14);
    assert_eq!(machine.status(), 0xC);
    accept(&mut machine, &["Q0C", "Q09"]);
    end(&mut machine, 0);
    accept(&mut machine, &["Q088"]);
    ticks(&mut machine, 250, 0);
    accept(&mut machine, &["Q09"]);
    assert_eq!(end(&mut machine, 0), Entry { ticks: 2, cause: 1, travels: [0; 5] });
    accept(&mut machine, &["Q0C"]);
    assert_eq!(end(&mut machine, 0), Entry { ticks: 480, cause: 0, travels: [5, 2, -3, 0, 0] });
}

/// A stored start that a full watch count stops in its own tick is carried on with m = 0.
#[test]
fn a_stored_start_stopped_in_its_own_tick() {
    let mut machine = fast(&["P0000001", "P0A00FA1", "P0B1", "Q080"]);
    ticks(&mut machine, 207, 0);
    accept(&mut machine, &["Q088"]);
    ticks(&mut machine, 1_000_249, 0);
    assert_eq!(one_tick(&mut machine, 0).entry, Some(Entry { ticks: 1, cause: 1, travels: [0; 5] }));
    assert_eq!(machine.status(), 9);
    accept(&mut machine, &["Q0C"]);
    assert_eq!(end(&mut machine, 0), Entry { ticks: 207, cause: 0, travels: [1, 0, 0, 0, 0] });
}
