//! A list of calls followed from its accepted lines and answers alone: the latest move, positions, entries, blocks.

use super::assert_shares;
pub use super::latest::Move;
use super::settled::Settled;
use reference::line::read_line;
use reference::{Command, Entry, Machine, TickAnswer};

/// The status bit of a running move.
const MOVING: u32 = 2;

/// The status bits of stops: by order, limit or watch; emergency held; by sensor.
const STOPPED: u32 = 0x68;

/// What a lent buffer holds before a tick.
const KEPT: [u8; 255] = [0xEE; 255];

/// What a list has shown so far.
#[derive(Default)]
pub struct Followed {
    line: Vec<u8>,
    pub next_distances: [u32; 5],
    dwell_ms: u32,
    dwell: u32,
    waiting: Option<u8>,
    moving: bool,
    pub latest: Option<Move>,
    positions: [i32; 5],
    pub starts: u32,
    pub carry_ons: u32,
    /// Every move that has ended, with its entry.
    pub ended: Vec<(Move, Entry)>,
    /// The blocks of W lines.
    pub settled: Settled,
}

impl Followed {
    fn begin(&mut self, master: u8, stored: bool) {
        let (distances, master) = (self.next_distances, master as usize);
        self.latest = Some(Move { distances, master, stored, ..Move::default() });
        self.moving = true;
        self.waiting = None;
        self.dwell = 0;
        self.starts += 1;
    }

    fn accepted(&mut self, command: Command) {
        match command {
            Command::Distance { axis, pulses, .. } => self.distance_line(axis as usize, pulses),
            Command::CarryOn => self.carry_on(),
            Command::Dwell(ms) => self.dwell_ms = ms,
            Command::ResetPositions => self.positions = [0; 5],
            Command::Stop => self.order_9(),
            Command::StartAfterDwell { master } if self.dwell > 0 => self.waiting = Some(master),
            Command::Start { master } | Command::StartAfterDwell { master } => self.begin(master, false),
            _ => {}
        }
    }

    fn distance_line(&mut self, axis: usize, pulses: u32) {
        self.next_distances[axis] = pulses;
        if let Some(latest) = &mut self.latest {
            latest.distance_line = true;
        }
    }

    fn carry_on(&mut self) {
        self.latest.as_mut().unwrap().carry_on();
        (self.moving, self.waiting, self.dwell) = (true, None, 0);
        self.carry_ons += 1;
    }

    /// Paper 02, 6/14: whether there is something to carry on, read off accepted lines, starts, stops and ends.
    fn left_open(&self) -> bool {
        !self.moving && self.latest.as_ref().is_some_and(|latest| !latest.is_whole() && !latest.distance_line)
    }

    /// The number of a carry-on: 11 in a move, else 26 exactly where nothing is left open; 17 never strikes one. No
    /// other line has 26.
    fn check_number(&self, line: &[u8], number: u8) {
        let carry_on = read_line(line).is_ok_and(|read| read.command == Command::CarryOn);
        assert_eq!(carry_on && !self.moving && !self.left_open(), number == 26);
        if carry_on && number != 26 {
            assert!(if self.moving { number == 11 } else { matches!(number, 0 | 12 | 13 | 16) });
        }
    }

    fn order_9(&mut self) {
        self.waiting = None;
        if let Some(latest) = self.latest.as_mut().filter(|_| self.moving) {
            latest.stop_begun = true;
        }
    }

    /// One received byte with so many bytes lent; its number.
    pub fn byte(&mut self, machine: &mut Machine, byte: u8, lent: usize) -> u8 {
        let number = machine.byte(byte, &mut vec![0; lent]).number;
        if number == 2 {
            return number;
        }
        if byte != 0x0D {
            self.line.push(byte);
            return number;
        }
        let line = std::mem::take(&mut self.line);
        self.check_number(&line, number);
        if number == 0 {
            self.accepted(read_line(&line).unwrap().command);
            self.settled.accepted(&line);
        }
        self.check(machine);
        number
    }

    /// The dwell counts down; a waiting start begins as it becomes 0, or fails by the tick's number.
    fn count_dwell(&mut self, number: u8) {
        let due = self.dwell == 1;
        self.dwell = self.dwell.saturating_sub(1);
        let tried = if due { self.waiting.take() } else { None };
        match tried {
            Some(master) if number == 0 => self.begin(master, true),
            Some(_) => assert!((12..=17).contains(&number)),
            None => assert_eq!(number, 0),
        }
    }

    /// An accepted tick of a running move; the entry that it must answer.
    fn move_tick(&mut self, pulses: [i8; 5], status: u32) -> Option<Entry> {
        let latest = self.latest.as_mut().unwrap();
        latest.ticks += 1;
        latest.stop_begun |= status & STOPPED != 0;
        for (sum, pulse) in latest.signed_pulses.iter_mut().zip(pulses) {
            *sum += pulse as i32;
        }
        if status & MOVING != 0 {
            return None;
        }
        latest.check_end(pulses);
        self.moving = false;
        self.dwell = 250 * self.dwell_ms;
        self.ended.push((latest.clone(), latest.entry()));
        Some(latest.entry())
    }

    /// A tick that is turned away, by 2 before 3, answers no entry and no block.
    fn refused_tick(&mut self, answer: TickAnswer, number: u8) {
        assert_eq!(answer, TickAnswer { pulses: [0; 5], words: [0, 0], number, entry: None, len: 0 });
        if let Some(latest) = self.latest.as_mut().filter(|_| self.moving) {
            latest.refused_ticks += 1;
        }
    }

    /// What an accepted tick answered: the dwell, positions, the move and its entry.
    fn accepted_tick(&mut self, machine: &Machine, answer: TickAnswer) {
        assert!(answer.number == 0 || answer.entry.is_none());
        self.count_dwell(answer.number);
        for (position, pulse) in self.positions.iter_mut().zip(answer.pulses) {
            *position += pulse as i32;
        }
        let entry = if self.moving { self.move_tick(answer.pulses, machine.status()) } else { None };
        assert_eq!(answer.entry, entry);
        self.check(machine);
    }

    /// One tick with so many bytes lent, at most 255; those behind its block keep their values.
    pub fn tick(&mut self, machine: &mut Machine, word: u32, lent: usize) {
        let mut whole = KEPT;
        let answer = machine.tick(word, &mut whole[..lent]);
        assert_eq!(whole[answer.len..], KEPT[answer.len..]);
        if lent < 120 || word >= 0x0100_0000 {
            return self.refused_tick(answer, if lent < 120 { 2 } else { 3 });
        }
        assert_eq!(self.settled.ticked(machine.switch(), word), whole[..answer.len]);
        self.accepted_tick(machine, answer);
    }

    /// Status, travels, shares and positions are those that were followed.
    fn check(&self, machine: &Machine) {
        let bits = u32::from(self.moving || self.dwell > 0) | u32::from(self.moving) << 1;
        assert_eq!(machine.status() & 3, bits);
        assert_eq!(machine.positions(), self.positions);
        match &self.latest {
            Some(latest) => {
                assert_eq!(machine.travels(), latest.travels());
                assert_shares(machine.travels(), latest.distances, latest.master);
            }
            None => assert_eq!(machine.travels(), [0; 5]),
        }
    }
}
