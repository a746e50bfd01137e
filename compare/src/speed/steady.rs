//! The mean cost of a tick, of a line and of a character: long lists less short ones.

use super::clock;
use super::load::{must_agree, Calls, Replayed, LENT, LOADS, MACHINES, WARM_TICKS};
use std::hint::black_box;

/// The timed ticks, those of the ramp before them left out.
const TIMED_TICKS: u32 = 100_000;

/// Lines before the timed ones, and the timed ones.
const WARM_LINES: usize = 100;
const TIMED_LINES: usize = 2_000;

/// Characters of an over-long line before the timed ones, and the timed ones.
const WARM_CHARACTERS: usize = 1_000;
const TIMED_CHARACTERS: usize = 20_000;

/// A line of one character and one of ten: both are turned away by 4, nine more characters join the second.
const SHORT_LINE: &str = "P";
const LONG_LINE: &str = "P028138800";

/// Each time is the least of so many runs.
const RUNS: usize = 200;

/// One row of the table, in ns.
pub struct Row {
    pub name: String,
    /// At 250 kHz, at 2.5 kHz and at rest.
    pub ticks: [f64; 3],
    /// `Q06` and `P0281388`.
    pub lines: [f64; 2],
    /// Within ten characters of a line, and past them.
    pub characters: Option<[f64; 2]>,
}

/// A long list and a short one, and how many steps the long one has more.
struct Figure {
    long: Calls,
    short: Calls,
    steps: f64,
}

impl Figure {
    /// Lists of one kind, the short one of `warm` steps and the long one of `timed` more.
    fn of(list: impl Fn(usize) -> Calls, warm: usize, timed: usize) -> Figure {
        Figure { long: list(warm + timed), short: list(warm), steps: timed as f64 }
    }
}

/// The settings of the load and more lines, then ticks in one call.
fn ticks_figure(lines: &[&str]) -> Figure {
    let list = |count| Calls::load().lines(lines).ticks(count as u32, 0);
    Figure::of(list, WARM_TICKS as usize, TIMED_TICKS as usize)
}

fn many(line: &str, count: usize) -> Calls {
    Calls::default().lines(&vec![line; count])
}

fn line_figure(line: &str) -> Figure {
    Figure::of(|count| many(line, count), WARM_LINES, TIMED_LINES)
}

/// Characters that join a line.
fn joining_figure() -> Figure {
    let joined = TIMED_LINES * (LONG_LINE.len() - SHORT_LINE.len());
    Figure { long: many(LONG_LINE, TIMED_LINES), short: many(SHORT_LINE, TIMED_LINES), steps: joined as f64 }
}

/// Characters of a line that is too long already.
fn over_long_figure() -> Figure {
    Figure::of(|count| Calls::default().characters(&"5".repeat(count)), WARM_CHARACTERS, TIMED_CHARACTERS)
}

/// Three figures of ticks, two of lines, two of characters.
fn figures() -> Vec<Figure> {
    let mut figures: Vec<Figure> = LOADS.iter().map(|lines| ticks_figure(lines)).collect();
    figures.extend(["Q06", "P0281388"].map(line_figure));
    figures.extend([joining_figure(), over_long_figure()]);
    figures
}

fn seconds(replay: Replayed, calls: &Calls) -> f64 {
    let before = clock::thread_seconds();
    black_box(replay(0, black_box(calls.bytes())));
    clock::thread_seconds() - before
}

/// The ns of each figure for each machine; machines and figures take turns, so that a busy neighbour meets all alike.
fn least(figures: &[Figure]) -> Vec<[f64; 3]> {
    let mut least = vec![[[f64::INFINITY; 2]; 3]; figures.len()];
    for _ in 0..RUNS {
        for (times, figure) in least.iter_mut().zip(figures) {
            for (times, &(_, replay)) in times.iter_mut().zip(&MACHINES) {
                times[0] = times[0].min(seconds(replay, &figure.long));
                times[1] = times[1].min(seconds(replay, &figure.short));
            }
        }
    }
    let step = |figure: &Figure, [long, short]: [f64; 2]| (long - short) / figure.steps * 1e9;
    figures.iter().zip(least).map(|(figure, machines)| machines.map(|times| step(figure, times))).collect()
}

/// The rows of the libraries and of the reference.
pub fn rows() -> [Row; 3] {
    let figures = figures();
    figures.iter().for_each(|figure| must_agree(&figure.long));
    let least = least(&figures);
    [0, 1, 2].map(|machine| {
        let (name, ns) = (MACHINES[machine].0.into(), |figure: usize| least[figure][machine]);
        Row { name, ticks: [0, 1, 2].map(ns), lines: [3, 4].map(ns), characters: Some([5, 6].map(ns)) }
    })
}

fn print_row(row: &Row) {
    let [fast, slow, rest] = row.ticks;
    let [reading, setting] = row.lines;
    let [joining, over_long] = match row.characters {
        Some(characters) => characters.map(|ns| format!("{ns:.1}")),
        None => ["", ""].map(String::from),
    };
    print!("{:<20} {fast:>9.1} {slow:>9.1} {rest:>9.1} {reading:>9.0} {setting:>9.0}", row.name);
    println!(" {joining:>9} {over_long:>9}");
}

pub fn print<'a>(rows: impl Iterator<Item = &'a Row>) {
    println!("{:<20} {:^29} {:^19} {:^19}", "", "ns per tick", "ns per line", "ns per character");
    print!("{:<20} {:>9} {:>9} {:>9} {:>9} {:>9}", "", "250 kHz", "2.5 kHz", "at rest", "Q06", "P0281388");
    println!(" {:>9} {:>9}", "joins", "over-long");
    rows.for_each(print_row);
    println!("{}", notes());
}

fn notes() -> String {
    format!(
        "
Load: distances 524287, 393215, 262143, 131071, 77777, odd axes minus; slope FFF, speed F4240 or 2710, high-ON 33FF,
low-ON 0, general outputs ABC000, input word 0, switch 0; at rest after a stopped move.
Libraries and reference play one list of calls: the replay library all of it in one call, the others call by call.
A tick is the least of {RUNS} runs with {} ticks less the least with {WARM_TICKS}, over {TIMED_TICKS}; a line the same
with {} and {WARM_LINES} lines.
A character that joins: {TIMED_LINES} lines of {} characters less so many of {}, all turned away by 4; an over-long one:
one line of {} less one of {WARM_CHARACTERS}. CPU time of the thread.
The digest of all answers is included: block, entry, words, pulses and number of each tick, all ticks of a call being
lent the same {LENT} bytes; length, number and reply of each received byte, whose {LENT} bytes lent are cleared before.
The general outputs' W line has its block before the timed ticks.
The floor has no digest, and its lines are judged without a controller.",
        WARM_TICKS + TIMED_TICKS,
        WARM_LINES + TIMED_LINES,
        LONG_LINE.len(),
        SHORT_LINE.len(),
        WARM_CHARACTERS + TIMED_CHARACTERS,
    )
}
