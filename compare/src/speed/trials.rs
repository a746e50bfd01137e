//! A trial of 1,000,000 ticks (paper 02, 5/14): through the trial library and by the reference.

use super::clock;
use super::load::{Calls, LOADS};
use crate::bits::SENSOR;
use crate::counted::grouped;
use crate::played::Played;
use crate::replay;
use crate::temixohuel::Controller;
use reference::bench::MOST_TICKS;
use reference::{Machine, Trial};
use std::hint::black_box;

/// The most ms that a trial of the most ticks may take.
const BOUND: f64 = 20.0;

/// Each time is the least of so many runs.
const RUNS: usize = 20;

/// The line that turns the watch off, which else acts in the last tick.
const NO_WATCH: &str = "P0B0";

/// A trial of master 0: its name, the speed of the load and the input word.
struct Dose {
    name: &'static str,
    speed: &'static str,
    word: u32,
}

/// At 125 kHz no tick of the most is at rest, and about half of them have pulses; the sensor stops the last dose in its
/// first tick.
const DOSES: [Dose; 4] = [
    Dose { name: "250 kHz, ends", speed: LOADS[0][0], word: 0 },
    Dose { name: "125 kHz, goes on", speed: "P087A120", word: 0 },
    Dose { name: "2.5 kHz, goes on", speed: LOADS[1][0], word: 0 },
    Dose { name: "stopped in its first tick", speed: LOADS[0][0], word: SENSOR },
];

impl Dose {
    fn tried(&self, machine: &impl Played) -> Trial {
        machine.trial(0, black_box(self.word), black_box(MOST_TICKS))
    }

    /// The ms that it takes.
    fn ms(&self, machine: &impl Played) -> f64 {
        let before = clock::thread_seconds();
        black_box(self.tried(black_box(machine)));
        (clock::thread_seconds() - before) * 1e3
    }
}

/// A machine with the load, before its start.
fn ready<M: Played>(dose: &Dose) -> M {
    replay::run(0, Calls::load().lines(&[NO_WATCH, dose.speed]).bytes()).machine
}

/// A dose with the tick of its end, and the least ms of library and reference.
struct Row {
    name: &'static str,
    end: u32,
    ms: [f64; 2],
}

impl Row {
    /// The ticks that library and reference run: the first ends with the move.
    fn ticks(&self) -> [u32; 2] {
        [if self.end == 0 { MOST_TICKS } else { self.end }, MOST_TICKS]
    }
}

/// Library and reference take turns; figures of two that answer in two ways would tell nothing.
fn row(dose: &Dose) -> Row {
    let (ours, theirs): (Controller, Machine) = (ready(dose), ready(dose));
    let told = dose.tried(&ours);
    assert_eq!(told, dose.tried(&theirs), "a timed trial is answered in two ways; sh compare/run.sh finds where");
    let mut least = [f64::INFINITY; 2];
    for _ in 0..RUNS {
        least = [least[0].min(dose.ms(&ours)), least[1].min(dose.ms(&theirs))];
    }
    Row { name: dose.name, end: told.end, ms: least }
}

fn print_row(row: &Row) {
    let end = if row.end == 0 { "none".to_string() } else { grouped(row.end as u64) };
    print!("{:<28} {end:>11}", row.name);
    for (ms, ticks) in row.ms.into_iter().zip(row.ticks()) {
        let ns = if ticks > 1 { format!("{:.1}", ms * 1e6 / ticks as f64) } else { String::new() };
        print!(" {ms:>9.3} {ns:>11}");
    }
    println!();
}

/// Times the trials and prints their table; whether the library keeps the bound.
pub fn print() -> bool {
    println!("{:<28} {:>11} {:^21} {:^21}", "", "", "trial library", "reference");
    print!("{:<28} {:>11}", "a trial of 1,000,000 ticks", "tick of end");
    println!(" {:>9} {:>11} {:>9} {:>11}", "ms", "ns per tick", "ms", "ns per tick");
    let rows = DOSES.each_ref().map(row);
    rows.iter().for_each(print_row);
    let kept = rows.iter().all(|row| row.ms[0] <= BOUND);
    println!("{}", notes(if kept { "kept" } else { "NOT KEPT" }));
    kept
}

fn notes(verdict: &str) -> String {
    format!(
        "
One call of `temixohuel_trial` with master 0 on a controller with the load, at rest since power-on and without a watch;
each time is the least of {RUNS} runs, library and reference in turn. CPU time of the thread, that of the start line
included. Per tick: of those that are run, which behind the end the library does not, and the reference does. The last
dose meets the sensor: what it takes is the start and the clock.
The bound for a trial of {} ticks is {BOUND} ms: {verdict}.",
        grouped(MOST_TICKS as u64)
    )
}

#[cfg(test)]
mod tests {
    use super::*;

    #[test]
    fn the_doses_are_those_of_their_names() {
        let ends = DOSES.each_ref().map(|dose| dose.tried(&ready::<Machine>(dose)).end);
        assert!((530_000..540_000).contains(&ends[0]), "{ends:?}");
        assert_eq!(ends[1..], [0, 0, 1]);
    }
}
