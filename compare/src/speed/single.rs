//! The cost of each dearest single call: lists with it less lists without, and the reference's call alone.

use super::calls::{singles, Single};
use super::load::{must_agree, Calls, Replayed, LENT, MACHINES};
use super::steady::Row;
use crate::call::{Call, TICKS};
use crate::replay;
use reference::Machine;
use std::hint::black_box;
use std::time::Instant;

/// Each time is the median of so many turns, in each of which it is the least of so many runs.
const TURNS: usize = 25;
const RUNS: usize = 200;

/// A run does its work so many times, since clocks may have steps of 10 ns.
const TIMES: usize = 4;

/// The mean ns of a work done some times.
fn nanoseconds<R>(mut work: impl FnMut(usize) -> R) -> f64 {
    let begin = Instant::now();
    for time in 0..TIMES {
        black_box(work(time));
    }
    begin.elapsed().as_nanos() as f64 / TIMES as f64
}

/// The least ns of one work less the least of another, of runs that time both in turn.
fn least_more(mut run: impl FnMut() -> [f64; 2]) -> f64 {
    let mut least = [f64::INFINITY; 2];
    for _ in 0..RUNS {
        let [one, other] = run();
        least = [least[0].min(one), least[1].min(other)];
    }
    least[0] - least[1]
}

/// The ns that the list with the call takes more than the one without.
fn by_lists(replay: Replayed, lists: &[Calls; 2]) -> f64 {
    least_more(|| lists.each_ref().map(|calls| nanoseconds(|_| replay(0, black_box(calls.bytes())))))
}

/// One call of the reference machine, its answer made and not counted.
fn answer(machine: &mut Machine, call: Call, lent: &mut [u8]) {
    if call.kind == TICKS {
        black_box(machine.tick(black_box(call.value), lent));
    } else {
        black_box(machine.byte(black_box(call.received()), lent));
    }
}

/// The ns that the call itself, each time on another copy of the reference machine, takes more than nothing.
fn alone(ready: &Machine, call: Call) -> f64 {
    let mut lent = [0; LENT];
    least_more(|| {
        let mut copies = vec![ready.clone(); TIMES];
        [nanoseconds(|at| answer(&mut copies[at], call, black_box(&mut lent))), nanoseconds(|at| at)]
    })
}

/// The ns of a call in one turn: library, reference, and the reference's call alone.
fn turn(single: &Single) -> [f64; 3] {
    let lists = single.lists();
    let [ours, _, theirs] = MACHINES;
    let ready = replay::run(0, single.before.bytes()).machine;
    [by_lists(ours.1, &lists), by_lists(theirs.1, &lists), alone(&ready, single.call)]
}

/// The median of each of three figures over all turns.
fn medians(turns: &[[f64; 3]]) -> [f64; 3] {
    [0, 1, 2].map(|figure| {
        let mut ns: Vec<f64> = turns.iter().map(|turn| turn[figure]).collect();
        ns.sort_by(f64::total_cmp);
        ns[ns.len() / 2]
    })
}

/// The ns of each call; the calls take turns, so that a busy neighbour meets all alike.
fn figures(singles: &[Single]) -> Vec<[f64; 3]> {
    singles.iter().for_each(|single| must_agree(&single.lists()[0]));
    let mut turns = vec![Vec::new(); singles.len()];
    for _ in 0..TURNS {
        for (turns, single) in turns.iter_mut().zip(singles) {
            turns.push(turn(single));
        }
    }
    turns.iter().map(|turns| medians(turns)).collect()
}

/// Times the calls and prints their table, each beside the mean tick at rest of the rows of library and reference.
pub fn print(rows: &[Row; 3]) {
    let singles = singles();
    let figures = figures(&singles);
    let [ours, theirs] = [0, 2].map(|row| rows[row].ticks[2]);
    println!("{:<28} {:^21} {:^21} {:>13}", "", "replay library", "reference", "reference,");
    print!("{:<28} {:>7} {:>13} {:>7} {:>13}", "one call", "ns", "ticks at rest", "ns", "ticks at rest");
    println!(" {:>13}", "call alone ns");
    println!("{:<28} {ours:>7.1} {:>13.1} {theirs:>7.1} {:>13.1}", "mean tick at rest", 1.0, 1.0);
    for (single, [library, reference, alone]) in singles.iter().zip(figures) {
        print!("{:<28} {library:>7.0} {:>13.1} {reference:>7.0}", single.name, library / ours);
        println!(" {:>13.1} {alone:>13.0}", reference / theirs);
    }
    println!("{}", notes());
}

fn notes() -> String {
    format!(
        "
Each call is that very one, after the calls that lead to it from power-on. Library and reference: the least of {RUNS}
runs of the list that ends with the call, less the least of {RUNS} runs of the list without it (of a tick: with a call
of no ticks in its place), the two in turn; a run replays its list {TIMES} times. The digest of the answer is included
(of `q08` 108 bytes of reply), and of a byte what clears the {LENT} bytes lent; no tick here has a W line's block, which
is still to come in all of them. Call alone: the least of {RUNS} runs of the reference's call on {TIMES} copies of its
machine, less the least of timing nothing; no digest. Each figure is the median of {TURNS} such turns, by the clock on
the wall. A list takes some µs, so a busy machine shows: 10 to 30 ns of a figure may be noise. Compare figures of one
run only. In the least run the processor foresees the branches: a call that comes once in a while may cost more."
    )
}
