//! Preview: what its stored input reaches, and what its trials tell beside the doses behind them.

mod common;
use common::programs::printed;
use reference::make_preview::preview_text;
use reference::preview::{read_trial_line, run, OTHER_FORM};
use reference::trial;
use reference::{bench, desk};
use std::collections::BTreeSet;
use std::io::BufReader;

/// What preview prints for an input.
fn preview(input: &[u8]) -> String {
    printed(|input, output| run(BufReader::new(input), output), input)
}

/// The lines of the stored input.
fn stored() -> Vec<Vec<u8>> {
    preview_text().split(|&byte| byte == b'\n').map(<[u8]>::to_vec).collect()
}

/// Whether a line is one for the bench program.
fn is_for_bench(line: &[u8]) -> bool {
    line.first() != Some(&b'D')
}

/// Without its D lines the stored input prints the same but for the screens, which is what desk tells of the bench
/// program; so nothing of a trial is done.
#[test]
fn nothing_of_a_trial_is_done() {
    let lines = stored();
    let session: Vec<&[u8]> = lines.iter().map(Vec::as_slice).filter(|line| is_for_bench(line)).collect();
    let session = session.join(&b'\n');
    let told = printed(bench::run, &session);
    let told = printed(|input, output| desk::run(BufReader::new(input), output), told.as_bytes());
    assert_eq!(preview(&session), told);
    let whole = preview(&preview_text());
    let mut behind = whole.lines();
    assert!(told.lines().all(|line| behind.any(|other| other == line)));
}

/// The session goes to the bench program's controller; each trial with the controller that it finds.
fn each_trial(mut take: impl FnMut(usize, u32, trial::Trial)) {
    let mut machine = bench::opened();
    for (place, line) in stored().iter().enumerate() {
        if is_for_bench(line) {
            bench::obey(&mut machine, line, &mut Vec::new()).unwrap();
        } else if let Some(asked) = read_trial_line(line) {
            take(place, asked.ticks, trial::trial(&machine, asked.master, asked.word, asked.ticks));
        }
    }
}

/// Every number, doses that end at once, in the last tick asked for and before it, and those that do not end; all in
/// ticks that the gate has time for.
#[test]
fn what_the_trials_reach() {
    let (mut numbers, mut ends, mut all_ticks) = (BTreeSet::new(), BTreeSet::new(), 0);
    each_trial(|_, ticks, shown| {
        numbers.insert(shown.number);
        if shown.number == 0 {
            let end = if shown.end == ticks { "last" } else { "before" };
            ends.insert((end, shown.end.min(2), ticks == 0, ticks == 1_000_000, shown.travels.iter().all(|&t| t > 0)));
            all_ticks += ticks;
        }
    });
    assert_eq!(Vec::from_iter(numbers), [0, 3, 10, 11, 12, 13, 14, 15, 16, 17, 25]);
    for reached in [("last", 0, true, false, false), ("last", 2, false, false, true), ("last", 2, false, true, false)] {
        assert!(ends.contains(&reached), "{reached:?}");
    }
    for reached in [("before", 0, false, true, false), ("before", 1, false, false, false)] {
        assert!(ends.contains(&reached), "{reached:?}");
    }
    assert!(ends.contains(&("before", 2, false, false, true)) && ends.contains(&("before", 2, false, true, true)));
    assert!(all_ticks < 30_000_000, "{all_ticks}");
}

/// A trial with its own start, ticks and readings right behind it leaves what it told.
#[test]
fn doses_behind_their_trials() {
    let lines = stored();
    let mut doses = 0;
    let mut machine = bench::opened();
    for four in lines.windows(4) {
        let begins = read_trial_line(&four[0]).filter(|asked| {
            let start = format!("Q08{}", asked.master);
            let ticks = format!("T {} {:06X}", asked.ticks, asked.word);
            four[1] == start.as_bytes() && four[2] == ticks.as_bytes() && four[3] == b"q08"
        });
        if let Some(asked) = begins {
            let shown = trial::trial(&machine, asked.master, asked.word, asked.ticks);
            let mut dose = machine.clone();
            four[1..3].iter().for_each(|line| bench::obey(&mut dose, line, &mut Vec::new()).unwrap());
            assert_eq!((shown.number, shown.travels), (0, dose.travels()));
            assert_eq!(shown.positions, dose.positions().map(i64::from));
            assert_eq!(shown.end == 0, dose.status() & 2 == 2);
            doses += 1;
        }
        if is_for_bench(&four[0]) {
            bench::obey(&mut machine, &four[0], &mut Vec::new()).unwrap();
        }
    }
    assert!(doses >= 15, "{doses}");
}

#[test]
fn lines_of_the_stored_input() {
    let lines = stored();
    assert_eq!(lines[lines.len() - 1], b"D 0 300 000000");
    let d_lines: Vec<&Vec<u8>> = lines.iter().filter(|line| !is_for_bench(line)).collect();
    for (length, has_form) in [(99, true), (99, false), (100, false)] {
        let is_such = |line: &&Vec<u8>| line.len() == length && read_trial_line(line).is_some() == has_form;
        assert!(d_lines.iter().copied().any(|line| is_such(&line)), "{length} {has_form}");
    }
    assert!(d_lines.iter().all(|line| line.len() < 100 || read_trial_line(line).is_none()));
    assert!(preview(&preview_text()).matches(OTHER_FORM).count() > 60);
}
