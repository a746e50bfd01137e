//! Stored inputs: what the stored lists show of the watch that power-on sets (paper 02, 2/14).
//!
//! The long move has V 100,000 and a 4,095: u is 5,000,000 from tick 1,222 on, so that n ticks grow the phase by
//! 3,054,996,945 + 5,000,000 × (n - 1,221). A stop begun after them takes 1,222 ticks; in all it is then 5,000,000 × n.

mod common;
use common::accept;
use common::stored_lists::{played, stored_list, stored_lists};
use reference::lists::{Call, List};
use reference::Machine;

const FULL: u32 = 1_000_000;

/// Status and travels of a controller.
fn reading(machine: &Machine) -> (u32, [u32; 5]) {
    (machine.status(), machine.travels())
}

/// What each `R` of a list reads.
fn readings(list: &List) -> Vec<(u32, [u32; 5])> {
    let mut read = Vec::new();
    played(list, |_| {}, |machine| read.push(reading(machine)));
    read
}

/// The list reads so, R by R: the status and the master's travel.
fn reads(begins: &str, wanted: &[(u32, u32)]) {
    let read: Vec<(u32, u32)> = readings(&stored_list(begins)).iter().map(|(status, t)| (*status, t[0])).collect();
    assert_eq!(read, wanted, "{begins}");
}

#[test]
fn the_long_move_is_stopped_from_power_on_and_runs_on_after_p0b0() {
    let stopped = [(3, 99_938), (0xB, 99_938), (0xB, 99_999), (8, 99_999), (8, 99_999), (8, 99_999), (8, 99_999)];
    let begun = [(0, 0)];
    let read = [&begun[..], &stopped[..], &[(8, 99_999)]].concat();
    reads("Watch of power-on: a long move", &read);
    let running = [(3, 99_938), (3, 99_938), (3, 100_060), (3, 100_061), (3, 100_061), (3, 109_938)];
    let read = [&begun[..], &running[..], &[(0xB, 109_938), (0xB, 110_000), (8, 110_000), (8, 110_000)]].concat();
    reads("P0B0 first: the same long move", &read);
    let shares = readings(&stored_list("Watch of power-on: a long move"))[4].1;
    assert_eq!(shares, [99_999, 66_666, 0, 0, 0]);
}

#[test]
fn the_least_speed_has_its_first_pulse_in_tick_1000002_or_never() {
    reads("Watch of power-on, least", &[(0xB, 0), (8, 0), (8, 0), (8, 0), (8, 0), (3, 0), (3, 0), (3, 0)]);
    for begins in ["P0B0 first, least", "P0B00000 first", "P4B0 first"] {
        reads(begins, &[(3, 0), (3, 1), (0xB, 1), (0xB, 1), (8, 1), (3, 0), (3, 0), (3, 0)]);
    }
}

#[test]
fn p0b0_under_way_leaves_the_watch() {
    let before = [(0, 0), (3, 99_938), (3, 99_938), (3, 99_938)];
    let stopped = [(3, 199_938), (0xB, 199_938), (0xB, 199_999), (8, 199_999), (3, 0)];
    let read = readings(&stored_list("P0B0 under way"));
    let wanted = [&before[..], &stopped[..]].concat();
    assert_eq!(read.iter().map(|(status, t)| (*status, t[0])).take(9).collect::<Vec<_>>(), wanted);
    assert_eq!(read[9].0, 3);
}

#[test]
fn silence_is_broken_by_10_to_17_alone() {
    let stopped = [(0xB, 99_938), (0xB, 99_999), (8, 99_999)];
    let lines = [&[(0, 0), (3, 99_938), (3, 99_938)], &stopped[..], &[(8, 99_999)]].concat();
    reads("Watch of power-on: lines turned away by 4 to 9", &lines);
    let (waiting, full) = ([(0, 0), (3, 0), (3, 99_938), (3, 99_938), (3, 99_938), (3, 99_938)], [(0xB, 99_938); 2]);
    let end = [(0xB, 99_999), (0xB, 99_999), (8, 99_999), (8, 99_999)];
    reads("Watch of power-on: over-large words", &[&waiting[..], &full[..], &end[..]].concat());
    let postponed = [(0, 0), (3, 99_938), (3, 99_938), (3, 99_938), (3, 99_939), (0xB, 99_939)];
    reads("Watch of power-on: P0B4", &[&postponed[..], &[(0xB, 100_000), (8, 100_000), (8, 100_000)]].concat());
}

/// Bit 2 (wrong master) is set by 14, bit 4 is seen while the limit is active; every stored start runs to its end.
#[test]
fn a_start_turned_away_in_a_dwell_keeps_the_stored_one_from_a_stop() {
    let read = readings(&stored_list("Watch of power-on: starts turned away"));
    for (round, (away, due)) in read.chunks_exact(7).zip([(9, 3), (0xD, 7), (0x19, 3)]) {
        assert_eq!([round[0].0, round[1].0, round[3].0, round[4].0], [9, 9, away, due]);
        assert_eq!((round[5], round[6].0), ((due - 2, [3, 2, 0, 0, 0]), 1));
    }
}

/// Switch 8 leaves bits 20 to 23 to the general outputs. At the third reading the count is full: a stored start began,
/// was stopped and ended, and a dwell runs again.
#[test]
fn general_outputs_outlast_a_full_count() {
    let list = stored_list("Watch of power-on: a full count keeps");
    let read = readings(&list);
    assert_eq!(read[..5].iter().map(|(status, _)| *status).collect::<Vec<_>>(), [9, 9, 9, 9, 3]);
    assert!(read.iter().all(|(_, travels)| *travels == [0; 5]));
    played(&list, |answer| assert_eq!(answer.words[1] & 0xF0_0000, 0xF0_0000), |_| {});
}

/// How long a line has been silent, in accepted ticks.
#[derive(Default)]
struct Silence(u32);

impl Silence {
    /// Lines: accepted lines, and lines turned away by 10 to 17, break it; a byte before 0D or turned away does not.
    fn byte(&mut self, byte: u8, number: u8) {
        if byte == 0x0D && (number == 0 || number >= 10) {
            self.0 = 0;
        }
    }

    fn tick(&mut self, number: u8) {
        self.0 += u32::from(number != 2 && number != 3);
    }
}

/// Two controllers from power-on, one of which got P0B0, the silence of their line, and what it came to.
struct Both {
    watched: Machine,
    off: Machine,
    silence: Silence,
    full: bool,
    decided: bool,
}

impl Both {
    fn byte(&mut self, byte: u8, lent: u8) {
        let (mut lent_watched, mut lent_off) = (vec![0; lent as usize], vec![0; lent as usize]);
        let answer = self.watched.byte(byte, &mut lent_watched);
        self.decided |= (self.off.byte(byte, &mut lent_off), &lent_off) != (answer, &lent_watched);
        self.silence.byte(byte, answer.number);
    }

    fn tick(&mut self, word: u32, lent: u8) {
        let (mut lent_watched, mut lent_off) = ([0; 255], [0; 255]);
        let answer = self.watched.tick(word, &mut lent_watched[..lent as usize]);
        self.decided |= (self.off.tick(word, &mut lent_off[..lent as usize]), lent_off) != (answer, lent_watched);
        self.silence.tick(answer.number);
        self.full |= self.silence.0 >= FULL;
    }
}

/// One list for its first switch, on a controller from power-on and on one that got P0B0: did the silence reach a full
/// count, and did the two ever answer or read differently?
fn full_and_decided(list: &List) -> (bool, bool) {
    let watched = Machine::power_on(list.first).0;
    let mut off = watched.clone();
    accept(&mut off, &["P0B0"]);
    let mut both = Both { watched, off, silence: Silence::default(), full: false, decided: false };
    for &call in &list.calls {
        match call {
            Call::Byte { byte, lent } => both.byte(byte, lent),
            Call::Ticks { count, word } => (0..count).for_each(|_| both.tick(word, 120)),
            Call::Tick { word, lent } => both.tick(word, lent),
            Call::Readings => both.decided |= reading(&both.watched) != reading(&both.off),
        }
    }
    (both.full, both.decided)
}

/// Headings of the lists that fill the count though the power-on watch decides nothing: they set the watch themselves.
const SET_BY_LINES: [&str; 10] = [
    "Watch 3",
    "Watch 1",
    "P0B0 first: the",
    "P0B0 first, least",
    "P0B00000 first",
    "P4B0 first",
    "Settled inputs: the watch clears",
    "Carry-ons: stopped by the watch",
    "Carry-ons: a stored start that a full watch",
    "Identification: a small one postpones",
];

/// Headings of the lists that the power-on watch decides.
const DECIDED: [&str; 6] = [
    "Watch of power-on: a long move",
    "Watch of power-on, least speed",
    "P0B0 under way",
    "Watch of power-on: a full count keeps",
    "Watch of power-on: lines turned away by 4 to 9",
    "Watch of power-on: over-large words",
];

#[test]
fn the_power_on_watch_decides_the_lists_that_are_for_it_and_no_other() {
    for (words, list) in stored_lists() {
        let decided = DECIDED.iter().any(|begins| words.starts_with(begins));
        let set_by_lines = SET_BY_LINES.iter().any(|begins| words.starts_with(begins));
        assert_eq!(full_and_decided(&list), (decided || set_by_lines, decided), "{words}");
    }
}
