//! Paper 02, 8/14: converted commands, written as lines and executed, move exactly the distances named.

mod common;
use common::station::ended;
use common::{accept, number, on, send, until_rest};
use reference::{write_line, Machine};

/// The lines of a command's values, without their 0D.
fn lines(text: &str) -> Vec<String> {
    let mut buf = [0; 10];
    let line = |value| {
        let length = write_line(value, &mut buf).unwrap();
        String::from_utf8(buf[..length - 1].to_vec()).unwrap()
    };
    ended(text).used().iter().map(line).collect()
}

/// The lines of a command go in, and ticks until the move has ended; the number of the last line.
fn execute(machine: &mut Machine, text: &str) -> u8 {
    let numbers: Vec<u8> = lines(text).iter().map(|line| number(machine, line)).collect();
    let (last, before) = numbers.split_last().unwrap();
    assert!(before.iter().all(|&number| number == 0), "{text}");
    until_rest(machine, 0);
    *last
}

/// A fast controller without a watch; the distances of its last move, of all axes, are still set.
fn moved_before() -> Machine {
    let mut machine = on();
    accept(&mut machine, &["P0B0", "P0900FFF", "P08F4240", "P0000003", "P0180005", "P0200007", "P0380009", "P040000B"]);
    accept(&mut machine, &["Q084"]);
    until_rest(&mut machine, 0);
    machine
}

/// The other axes get distance 0, whatever they had.
#[test]
fn both_axes_and_no_other() {
    let mut machine = moved_before();
    assert_eq!(machine.positions(), [3, -5, 7, -9, 11]);
    assert_eq!(execute(&mut machine, "SPD X 250000"), 0);
    assert_eq!(execute(&mut machine, "LNI X -20000, Y 20000"), 0);
    assert_eq!(machine.positions(), [-19_997, 19_995, 7, -9, 11]);
    assert_eq!(execute(&mut machine, "INC Y -500"), 0);
    assert_eq!(execute(&mut machine, "LNI X 7,Y -3"), 0);
    assert_eq!(machine.positions(), [-19_990, 19_492, 7, -9, 11]);
}

/// The next drawn number below `most`.
fn draw(drawn: &mut u64, most: u64) -> i64 {
    *drawn = drawn.wrapping_mul(6_364_136_223_846_793_005).wrapping_add(1_442_695_040_888_963_407);
    ((*drawn >> 33) % most) as i64
}

/// A drawn distance, mostly short, of either sign.
fn distance(drawn: &mut u64) -> i64 {
    let most = [3, 20, 300, 4_000][draw(drawn, 4) as usize];
    draw(drawn, 2 * most - 1) - most as i64 + 1
}

/// A drawn command and the distances that it names for X and Y.
fn command(drawn: &mut u64) -> (String, [i64; 2]) {
    let (x, y) = (distance(drawn), distance(drawn));
    match draw(drawn, 8) {
        0 => (format!("SPD X {}", 1_000 + draw(drawn, 249_001)), [0, 0]),
        1 => (format!("SPD Y {}", 50_000 + draw(drawn, 200_001)), [0, 0]),
        2 => (["SST X", "SST Y", "SST X,Y", "SST X, Y"][draw(drawn, 4) as usize].to_string(), [0, 0]),
        3 => (format!("INC X {x}"), [x, 0]),
        4 => (format!("INC Y {y}"), [0, y]),
        5 => (format!("LNI X {x},Y {y}"), [x, y]),
        _ => (format!("LNI X {x}, Y {y}"), [x, y]),
    }
}

/// Any list of commands: each position changes by the sum of what was named for it. A move of 0 alone is turned away.
#[test]
fn any_list_moves_what_it_names() {
    let (mut drawn, mut moved) = (1, 0);
    for _ in 0..20 {
        let mut machine = moved_before();
        let mut expected = machine.positions().map(i64::from);
        for _ in 0..40 {
            let (text, named) = command(&mut drawn);
            let nothing = named == [0, 0] && !text.starts_with('S');
            assert_eq!(execute(&mut machine, &text), if nothing { 15 } else { 0 }, "{text}");
            (expected[0], expected[1]) = (expected[0] + named[0], expected[1] + named[1]);
            assert_eq!(machine.positions().map(i64::from), expected, "{text}");
            moved += u32::from(named != [0, 0]);
        }
    }
    assert!(moved > 400);
}

/// The longest move either way; one pulse more is turned away by 17.
#[test]
fn the_longest_moves() {
    let mut machine = moved_before();
    accept(&mut machine, &["Q0B"]);
    assert_eq!(execute(&mut machine, "LNI X 524287, Y -524287"), 0);
    assert_eq!(machine.positions(), [524_287, -524_287, 0, 0, 0]);
    assert_eq!(execute(&mut machine, "INC Y -1"), 0);
    assert_eq!(execute(&mut machine, "INC Y -1"), 17);
    assert_eq!(execute(&mut machine, "INC X 1"), 17);
    assert_eq!(machine.positions(), [524_287, -524_288, 0, 0, 0]);
}

/// Both axes share one speed, the last SPD: 40 pulses a second are one in 6,250 ticks, whichever axis was named.
#[test]
fn one_speed_for_both_axes() {
    for speeds in [["SPD X 250000", "SPD Y 40"], ["SPD Y 250000", "SPD X 40"]] {
        for text in ["INC X 3", "INC Y -3", "LNI X 3,Y 3"] {
            let mut machine = moved_before();
            for speed in speeds {
                assert_eq!(execute(&mut machine, speed), 0);
            }
            assert_eq!(machine.speed(), 160);
            lines(text).iter().for_each(|line| assert_eq!(number(&mut machine, line), 0));
            let ticks = until_rest(&mut machine, 0);
            assert!((3 * 6_250..4 * 6_250).contains(&ticks), "{ticks}");
        }
    }
}

/// While a move runs every line of the next is turned away by 11; the stop order ends it.
#[test]
fn under_way() {
    let mut machine = moved_before();
    for line in lines("INC X 20000") {
        assert_eq!(number(&mut machine, &line), 0);
    }
    for line in lines("LNI X 1,Y 1") {
        assert_eq!(number(&mut machine, &line), 11);
    }
    assert_eq!(lines("SST X,Y"), ["Q0900000"]);
    assert_eq!(execute(&mut machine, "SST X,Y"), 0);
    assert_eq!(send(&mut machine, "Q06"), "S0600008");
    assert!(machine.positions()[0] < 20_003);
}
