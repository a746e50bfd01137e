//! Stored inputs: what the stored lists and the stored vectors reach.

use reference::lists::{Call, List};
use reference::make_host::host_text;
use reference::make_journal::journal_text;
use reference::make_lists::lists_text;
use reference::{vectors, Machine};
use std::collections::BTreeSet;

/// What a play of the stored lists has met.
#[derive(Default)]
struct Met {
    /// Numbers of power-on, lines with and without reply, and ticks.
    power_on: BTreeSet<u8>,
    replied: BTreeSet<u8>,
    silent: BTreeSet<u8>,
    ticks: BTreeSet<u8>,
    switches: BTreeSet<u8>,
    lent: BTreeSet<u8>,
    lengths: BTreeSet<usize>,
    /// Status bits that were seen, and causes that began a stop.
    status: u32,
    causes: BTreeSet<&'static str>,
    /// Axes and directions that a pulse was seen of.
    pulses: BTreeSet<(usize, i8)>,
    ends: u32,
}

impl Met {
    /// One received byte; `line` holds the characters of the half-received line.
    fn byte(&mut self, machine: &mut Machine, line: &mut Vec<u8>, byte: u8, lent: u8) {
        let before = machine.status();
        let answer = machine.byte(byte, &mut vec![0; lent as usize]);
        self.lent.insert(lent);
        if answer.number == 2 {
            self.replied.insert(2);
        } else if byte != 0x0D {
            line.push(byte);
        } else {
            let told = if line.get(1) == Some(&b'4') { &mut self.silent } else { &mut self.replied };
            told.insert(answer.number);
            self.lengths.insert(answer.len);
            line.clear();
        }
        if before & 0xA == 2 && machine.status() & 8 != 0 {
            self.causes.insert("order");
        }
    }

    /// One tick.
    fn tick(&mut self, machine: &mut Machine, word: u32, lent: u8) {
        let before = machine.status();
        let answer = machine.tick(word, &mut [0; 255][..lent as usize]);
        let after = machine.status();
        self.ticks.insert(answer.number);
        self.status |= after;
        for (axis, &pulse) in answer.pulses.iter().enumerate().filter(|(_, &pulse)| pulse != 0) {
            self.pulses.insert((axis, pulse));
        }
        if before & 2 == 0 {
            return;
        }
        let begun = after & !before;
        for (bit, cause) in [(0x20, "emergency"), (0x40, "sensor")] {
            if begun & bit != 0 {
                self.causes.insert(cause);
            }
        }
        if begun & 8 != 0 {
            self.causes.insert(if after & 0x10 != 0 { "limit" } else { "watch" });
        }
        self.ends += u32::from(after & 2 == 0);
    }

    /// One list for one switch.
    fn play(&mut self, switch: u8, calls: &[Call]) {
        let (mut machine, number) = Machine::power_on(switch);
        self.power_on.insert(number);
        self.switches.insert(switch);
        let mut line = Vec::new();
        for &call in calls {
            match call {
                Call::Byte { byte, lent } => self.byte(&mut machine, &mut line, byte, lent),
                Call::Ticks { count, word } => (0..count).for_each(|_| self.tick(&mut machine, word, 120)),
                Call::Tick { word, lent } => self.tick(&mut machine, word, lent),
                Call::Readings => self.status |= machine.status(),
            }
        }
    }
}

/// The stored lists are played; lists are found by their `E` lines.
fn met() -> Met {
    let mut met = Met::default();
    let mut list = List::default();
    for line in lists_text().lines() {
        if line == "E" {
            (list.first..=list.last).for_each(|switch| met.play(switch, &list.calls));
        } else {
            list.take_line(line.as_bytes());
        }
    }
    met
}

#[test]
fn stored_lists_reach_every_number_and_cause() {
    let met = met();
    assert!(met.power_on.iter().eq([0, 1].iter()));
    assert!(met.switches.iter().copied().eq(0..=255));
    assert!(met.replied.iter().copied().eq([0, 2].into_iter().chain(4..=17).chain([26])));
    // A second character 4 is never number 6.
    assert!(met.silent.iter().copied().eq([0, 4, 5].into_iter().chain(7..=17).chain([26])));
    assert!(met.ticks.iter().copied().eq([0, 2, 3].into_iter().chain(12..=17)));
    assert!([0, 1, 119, 120, 121, 255].iter().all(|lent| met.lent.contains(lent)));
    assert!(met.lengths.iter().eq([0, 9, 10, 108, 120].iter()));
    assert_eq!(met.status, 0x7F);
    assert!(met.causes.iter().eq(["emergency", "limit", "order", "sensor", "watch"].iter()));
    assert_eq!(met.pulses.len(), 10);
    assert!(met.ends > 500);
}

/// What each line of the stored vectors prints.
fn host_answers() -> Vec<(String, String)> {
    host_text().lines().map(|line| (line.to_string(), vectors::answer(line.as_bytes()))).collect()
}

/// How many lines that begin so print a text that begins so.
fn count(answers: &[(String, String)], line: &str, text: &str) -> usize {
    answers.iter().filter(|(asked, printed)| asked.starts_with(line) && printed.starts_with(text)).count()
}

#[test]
fn stored_vectors_reach_every_answer() {
    let answers = host_answers();
    for number in ["00", "18", "19"] {
        assert!(count(&answers, "W ", number) > 20);
    }
    for block in ["20", "00 U", "00 T", "00 Q", "00 E", "00 P", "00 I"] {
        assert!(count(&answers, "B ", block) > 10, "{block}");
    }
    for axis in ["0", "1", "2", "3", "4"] {
        assert!(count(&answers, "M ", axis) > 3);
    }
    for kind in ["F V", "F A"] {
        assert!(count(&answers, kind, "00") > 10);
        assert!(count(&answers, kind, "21 21") > 10);
    }
    for letter in ["U V", "U A", "D V", "D A", "G "] {
        assert!(count(&answers, letter, "") > 0);
    }
    assert!(count(&answers, "", "?") > 50);
    assert!(!answers.iter().any(|(_, printed)| printed.contains('~')));
}

#[test]
fn stored_texts_are_plain() {
    for text in [lists_text(), host_text(), journal_text()] {
        assert!(text.bytes().all(|byte| byte == b'\n' || (0x20..0x7F).contains(&byte)));
        assert!(text.lines().filter(|line| line.starts_with('#')).all(|line| line.len() <= 100));
        assert_eq!(text.lines().filter(|line| line.len() > 100).count(), 1);
    }
}
