//! Journal: the entry that the tick answers in which a move ends, worked out by hand from the rules of the ramp.
//!
//! With slope a and a speed setting far above, u is n × a after n ticks and the phase has grown by a × n(n+1)/2. A stop
//! after n ticks takes n more, the last of them without a pulse, and all of them together grow the phase by a × n × n.

mod common;
use common::{accept, in_dwell, number, on, one_tick, send, ticks, until_rest};
use reference::{Entry, Machine};

/// A tick without an entry, n times.
fn no_entry(machine: &mut Machine, n: u32, word: u32) {
    for tick in 1..=n {
        assert_eq!(one_tick(machine, word).entry, None, "{tick}");
    }
}

/// The entry comes in the tick after n that have none, and no other follows.
fn entry_after(machine: &mut Machine, n: u32, word: u32, ticks: u64, cause: u8, travels: [i32; 5]) {
    no_entry(machine, n, word);
    assert_eq!(one_tick(machine, word).entry, Some(Entry { ticks, cause, travels }));
    let mut later = machine.clone();
    no_entry(&mut later, 300, word);
}

/// A fast controller with these lines accepted.
fn fast(lines: &[&str]) -> Machine {
    let mut machine = on();
    accept(&mut machine, &["P08F4240", "P0900FFF"]);
    accept(&mut machine, lines);
    machine
}

/// The printed session: M 1, a 4,095. Braking begins where n(2n+1) × 4,095 is 100,000,000 or more: after tick 111, with
/// the phase at 4,095 × 6,216. The 24,545,480 still open are reached 96 ticks later, by 4,095 × (110 + 109 + .. + 15).
#[test]
fn the_printed_session_ends_in_tick_207() {
    let mut machine = fast(&["P0000001", "P0180001", "Q080"]);
    entry_after(&mut machine, 206, 0, 207, 0, [1, -1, 0, 0, 0]);
}

/// In its first tick u is 0, at or below a.
#[test]
fn a_move_stopped_before_its_first_tick_has_one() {
    let mut machine = on();
    accept(&mut machine, &["P0000002", "P0480002", "Q080", "Q09"]);
    entry_after(&mut machine, 0, 0, 1, 1, [0; 5]);
}

/// 4,095 × 100 × 100 is short of a pulse; 4,095 × 200 × 200 is 163,800,000, three pulses, and 3 × 400 / 1,000 is one.
#[test]
fn stops_after_n_ticks_take_n_more() {
    for (n, pulses) in [(1, 0), (2, 0), (100, 0), (200, 3), (500, 20)] {
        let mut machine = fast(&["P00003E8", "P0180190", "P0400001", "P0380000", "Q080"]);
        no_entry(&mut machine, n, 0);
        accept(&mut machine, &["Q09"]);
        let second = pulses * 400 / 1_000;
        entry_after(&mut machine, n - 1, 0, 2 * n as u64, 1, [pulses, -second, 0, 0, 0]);
    }
}

/// 4,095 × 110 × 110 is 49,549,500 and 4,095 × 111 × 111 is 50,454,495. After tick 111 the speed of the printed session
/// falls by itself, so a stop begun then or later ends it in tick 207 all the same: m reached M.
#[test]
fn cause_0_where_m_reached_m_though_a_stop_had_begun() {
    for n in [111, 112, 150, 206] {
        let mut machine = fast(&["P0000001", "P0180001", "Q080"]);
        no_entry(&mut machine, n, 0);
        accept(&mut machine, &["Q09"]);
        entry_after(&mut machine, 206 - n, 0, 207, 0, [1, -1, 0, 0, 0]);
        assert_eq!(machine.status(), 8);
    }
    let mut machine = fast(&["P0000001", "P0180001", "Q080"]);
    no_entry(&mut machine, 110, 0);
    accept(&mut machine, &["Q09"]);
    entry_after(&mut machine, 109, 0, 220, 1, [0; 5]);
}

/// A sensor, an emergency, a limit: each begins its stop in the tick that meets it, which is one of the n more.
#[test]
fn stops_by_inputs() {
    for (setting, word) in [("Q0E02000", 0x2000), ("Q0E01000", 0x1000), ("Q0E00001", 1), ("Q0E00008", 8)] {
        let mut machine = fast(&["P00003E8", "P0180190", setting, "Q080"]);
        no_entry(&mut machine, 200, 0);
        entry_after(&mut machine, 199, word, 400, 1, [3, -1, 0, 0, 0]);
    }
}

#[test]
fn ticks_turned_away_do_not_count() {
    let mut machine = fast(&["P0000001", "P0180001", "Q080"]);
    no_entry(&mut machine, 9, 0x0100_0000);
    no_entry(&mut machine, 100, 0);
    no_entry(&mut machine, 9, u32::MAX);
    no_entry(&mut machine, 106, 0);
    no_entry(&mut machine, 9, 0x0100_0000);
    entry_after(&mut machine, 0, 0, 207, 0, [1, -1, 0, 0, 0]);
    no_entry(&mut machine, 9, 0x0100_0000);
}

/// A move of three pulses takes 362 ticks, the stored start's own included: the tick that ends the dwell of 500.
#[test]
fn a_stored_starts_own_tick_counts() {
    let mut machine = in_dwell();
    accept(&mut machine, &["P0080003", "Q088"]);
    no_entry(&mut machine, 499, 0);
    no_entry(&mut machine, 7, 0x0100_0000);
    entry_after(&mut machine, 361, 0, 362, 0, [-3, 0, 0, 0, 0]);
}

#[test]
fn a_stored_start_that_fails_has_no_entry() {
    let mut machine = in_dwell();
    accept(&mut machine, &["P0000000", "Q088"]);
    no_entry(&mut machine, 499, 0);
    let answer = one_tick(&mut machine, 0);
    assert_eq!((answer.number, answer.entry), (15, None));
    no_entry(&mut machine, 600, 0);
}

#[test]
fn a_stored_start_that_the_watch_stops_ends_in_its_own_tick() {
    let mut machine = fast(&["P0000003", "P0A00FA0", "P0B1", "Q080"]);
    until_rest(&mut machine, 0);
    accept(&mut machine, &["Q088"]);
    ticks(&mut machine, 4_000 * 250 - 1, 0);
    assert_eq!(one_tick(&mut machine, 0).entry, Some(Entry { ticks: 1, cause: 1, travels: [0; 5] }));
}

#[test]
fn each_move_counts_anew_and_a_reset_keeps_travels() {
    let mut machine = fast(&["P0000003", "P0480003"]);
    for _ in 0..3 {
        accept(&mut machine, &["Q080"]);
        no_entry(&mut machine, 300, 0);
        accept(&mut machine, &["Q0B"]);
        entry_after(&mut machine, 61, 0, 362, 0, [3, 0, 0, 0, -3]);
        no_entry(&mut machine, 50, 0);
    }
    assert_eq!(machine.positions(), [1, 0, 0, 0, -1]);
}

#[test]
fn lines_and_rest_have_no_entry() {
    let mut machine = on();
    no_entry(&mut machine, 100, 0);
    accept(&mut machine, &["Q09"]);
    assert_eq!(number(&mut machine, "Q080"), 15);
    no_entry(&mut machine, 100, 0xFF_FFFF);
    assert_eq!(send(&mut machine, "Q06"), "S0600000");
}
