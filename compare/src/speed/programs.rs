//! Both bench programs on whole inputs: random bytes, lines, and ticks by `T` lines.

use super::clock;
use super::load::{LOADS, SETTINGS, WARM_TICKS};
use crate::counted::grouped;
use crate::program;
use crate::random::{part, Random};
use std::fs::{self, File};
use std::path::{Path, PathBuf};
use std::process::{Command, Stdio};
use std::time::Instant;

/// The proved bench program and the reference's.
const PROGRAMS: [(&str, &str); 2] =
    [("bench program", program::BENCH), ("reference's program", program::BENCH_REFERENCE)];

const RANDOM_BYTES: usize = 20_000_000;
const LINES: usize = 2_500_000;

/// The seed of the random bytes.
const SEED: u64 = 1;

/// Moves at 250 kHz, and the ticks of each: as many as leave room for a stop within the distance.
const MOVES: usize = 20;
const MOVE_TICKS: u32 = 500_000;

/// `T` lines at rest, and the ticks of each.
const REST_LINES: usize = 10;
const REST_TICKS: u32 = 1_000_000;

/// Each time is the least of so many runs.
const RUNS: usize = 3;

/// Seconds of one run, or the least of several.
#[derive(Clone, Copy)]
struct Cost {
    user: f64,
    system: f64,
    wall: f64,
}

impl Cost {
    fn least(self, other: Cost) -> Cost {
        let Cost { user, system, wall } = other;
        Cost { user: self.user.min(user), system: self.system.min(system), wall: self.wall.min(wall) }
    }
}

fn random_bytes() -> Vec<u8> {
    let mut random = Random::of_item(SEED, part::TIMED_BYTES, 0);
    (0..RANDOM_BYTES / 8).flat_map(|_| random.bits().to_le_bytes()).collect()
}

/// The settings of the load and more lines.
fn settings(lines: &[&str]) -> String {
    SETTINGS.iter().chain(lines).map(|line| format!("{line}\n")).collect()
}

/// Moves at 250 kHz with so many ticks before each is stopped; positions are reset, or no later move would fit.
fn moves(ticks: u32) -> Vec<u8> {
    let one = format!("Q080\nT {ticks} 000000\nQ09\nT {WARM_TICKS} 000000\nQ0B\n");
    (settings(&["P08F4240"]) + &one.repeat(MOVES)).into_bytes()
}

/// A stopped move, then so many `T` lines at rest.
fn rest(lines: usize) -> Vec<u8> {
    let one = format!("T {REST_TICKS} 000000\n");
    (settings(LOADS[2]) + &one.repeat(1 + lines)).into_bytes()
}

/// The inputs in the order of the costs; two of moves and two at rest differ in their ticks alone.
fn inputs() -> [Vec<u8>; 6] {
    let lines = b"Q06\n".repeat(LINES);
    [random_bytes(), lines, moves(MOVE_TICKS), moves(WARM_TICKS), rest(REST_LINES), rest(0)]
}

fn run(program: &str, input: &Path) -> Cost {
    let input = File::open(input).expect("a working file is read");
    let [user, system] = clock::children_seconds();
    let begin = Instant::now();
    let status = Command::new(program).stdin(input).stdout(Stdio::null()).status().expect("the program starts");
    let wall = begin.elapsed().as_secs_f64();
    assert!(status.success(), "{program} ended with {status}");
    let [user_after, system_after] = clock::children_seconds();
    Cost { user: user_after - user, system: system_after - system, wall }
}

/// Writes an input; both programs print the same on it, or their figures would tell nothing.
fn written(at: usize, input: &[u8]) -> PathBuf {
    let file = Path::new(program::FOLDER).join(format!("speed-{at}.in"));
    let [ours, theirs] = PROGRAMS.map(|(_, program)| program::output(Path::new(program), &[], &file, input));
    assert!(ours == theirs, "the programs print two things on {}", file.display());
    file
}

/// The least costs of each program on each input; programs and inputs take turns.
fn costs() -> [[Cost; 6]; 2] {
    let mut at = 0;
    let files = inputs().map(|input| {
        at += 1;
        written(at, &input)
    });
    let never = Cost { user: f64::INFINITY, system: f64::INFINITY, wall: f64::INFINITY };
    let mut costs = [[never; 6]; 2];
    for _ in 0..RUNS {
        for (at, file) in files.iter().enumerate() {
            for (costs, (_, program)) in costs.iter_mut().zip(PROGRAMS) {
                costs[at] = costs[at].least(run(program, file));
            }
        }
    }
    files.iter().for_each(|file| fs::remove_file(file).expect("a working file is removed"));
    costs
}

fn print_row(name: &str, [random, lines, fast, fast_less, rest, rest_less]: [Cost; 6]) {
    let [fast_ticks, rest_ticks] =
        [MOVES as f64 * (MOVE_TICKS - WARM_TICKS) as f64, REST_LINES as f64 * REST_TICKS as f64];
    let ns = |long: Cost, short: Cost, ticks: f64| (long.user - short.user) / ticks * 1e9;
    print!("{name:<20}");
    for Cost { user, system, wall } in [random, lines] {
        print!(" {user:>9.2} {system:>9.2} {wall:>9.2}");
    }
    println!(" {:>9.1} {:>9.1}", ns(fast, fast_less, fast_ticks), ns(rest, rest_less, rest_ticks));
}

/// Runs both programs and prints their table.
pub fn print() {
    let costs = costs();
    let random = format!("{} random bytes, s", grouped(RANDOM_BYTES as u64));
    let lines = format!("{} lines Q06, s", grouped(LINES as u64));
    println!("{:<20} {random:^29} {lines:^29} {:^19}", "", "T: ns per tick");
    print!("{:<20}", "");
    (0..2).for_each(|_| print!(" {:>9} {:>9} {:>9}", "user", "system", "wall"));
    println!(" {:>9} {:>9}", "250 kHz", "at rest");
    PROGRAMS.iter().zip(costs).for_each(|((name, _), costs)| print_row(name, costs));
    println!("{}", notes());
}

fn notes() -> String {
    format!(
        "
Each program reads a file and writes to /dev/null; each time is the least of {RUNS} runs. The bytes are of seed {SEED}.
A tick at 250 kHz: {MOVES} moves of the load with `T {MOVE_TICKS} 000000` less so many with `T {WARM_TICKS} 000000`;
at rest: {REST_LINES} lines `T {REST_TICKS} 000000` more; user seconds.
Both programs print the same on each file, which is looked at first."
    )
}

#[cfg(test)]
mod tests {
    use super::*;

    /// The sums that the reference prints for the first axis; every line but a `T` line is accepted.
    fn first_sums(text: &[u8]) -> Vec<i64> {
        let output = program::reference_output(reference::bench::run, text);
        let output = String::from_utf8(output).expect("replies are text");
        let (replies, sums): (Vec<&str>, Vec<&str>) = output.lines().partition(|line| line.len() == 8);
        assert!(replies.iter().all(|reply| !reply.starts_with('U') || *reply == "U0000000"));
        sums.iter().map(|line| line.split(' ').next().unwrap().parse().unwrap()).collect()
    }

    #[test]
    fn the_ticks_between_are_at_full_speed() {
        let (long, short) = (first_sums(&moves(MOVE_TICKS)), first_sums(&moves(WARM_TICKS)));
        assert_eq!([long.len(), short.len()], [2 * MOVES; 2]);
        let more = (MOVE_TICKS - WARM_TICKS) as i64;
        assert!(long.chunks(2).zip(short.chunks(2)).all(|(long, short)| long[0] - short[0] == more));
    }

    #[test]
    fn the_ticks_between_are_at_rest() {
        assert_eq!(first_sums(&rest(1)), [0, 0]);
    }
}
