//! Everything under "Marked".

mod common;
use common::{accept, number, on, one_tick, send, ticks, until_rest};
use reference::share::share;
use reference::Machine;

#[test]
fn share_table() {
    let travels = |d: u32| (1..=5).map(|m| share(m, d, 5)).collect::<Vec<_>>();
    assert_eq!(travels(2), [0, 0, 1, 1, 2]);
    assert_eq!(travels(3), [0, 1, 1, 2, 3]);
    assert_eq!(travels(5), [1, 2, 3, 4, 5]);
    assert_eq!(travels(0), [0, 0, 0, 0, 0]);
}

#[test]
fn share_table_in_a_move() {
    let mut machine = on();
    accept(&mut machine, &["P0000002", "P0180003", "P0200005", "P0300005", "P0400000", "P0900FFF", "Q082"]);
    let expected = [[0, 0, 1, 1, 0], [0, 1, 2, 2, 0], [1, 1, 3, 3, 0], [1, 2, 4, 4, 0], [2, 3, 5, 5, 0]];
    let mut seen = Vec::new();
    while machine.status() & 2 != 0 {
        let before = machine.travels();
        let answer = one_tick(&mut machine, 0);
        if answer.pulses[2] != 0 {
            seen.push(machine.travels());
        }
        let steps = [0, 1, 2, 3, 4].map(|axis| (machine.travels()[axis] - before[axis]) as i8);
        // Axis 1 goes minus.
        assert_eq!(answer.pulses, [steps[0], -steps[1], steps[2], steps[3], steps[4]]);
    }
    assert_eq!(seen, expected);
    assert_eq!(machine.positions(), [2, -3, 5, 5, 0]);
}

fn first_pulse(slope: &str) -> u32 {
    let mut machine = on();
    accept(&mut machine, &["P00003E8", "P08F4240", slope, "Q080"]);
    let mut tick = 1;
    while one_tick(&mut machine, 0).pulses == [0; 5] {
        tick += 1;
    }
    tick
}

#[test]
fn first_pulses() {
    assert_eq!(first_pulse("P0900FFF"), 156);
    assert_eq!(first_pulse("P0900010"), 2_500);
}

#[test]
fn power_on_slope_is_16_and_speed_10000() {
    let (machine, number) = Machine::power_on(5);
    assert_eq!((machine.speed(), machine.slope(), machine.switch(), number), (10_000, 16, 5, 0));
    assert_eq!((machine.travels(), machine.positions(), machine.status()), ([0; 5], [0; 5], 0));
}

#[test]
fn speed_limits() {
    let mut machine = on();
    assert_eq!(number(&mut machine, "P08F4240"), 0);
    assert_eq!(machine.speed(), 1_000_000);
    assert_eq!(number(&mut machine, "P08F4241"), 10);
    assert_eq!(machine.speed(), 1_000_000);
    assert_eq!(number(&mut machine, "P0800000"), 10);
    assert_eq!(number(&mut machine, "P0800001"), 0);
    assert_eq!(machine.speed(), 1);
}

/// A fast move of axis 3 alone by this distance line, in so many ticks; the sums of the pulses.
fn moved_axis_3(distance: &str, n: u32) -> (Machine, [i64; 5]) {
    let mut machine = on();
    accept(&mut machine, &[distance, "P0900FFF", "P08F4240", "Q083"]);
    let sums = ticks(&mut machine, n, 0);
    (machine, sums)
}

#[test]
fn position_minus_one_reads_fffff() {
    let (mut machine, sums) = moved_axis_3("P0380001", 1_000);
    assert_eq!(sums, [0, 0, 0, -1, 0]);
    assert_eq!(send(&mut machine, "q03"), "s03FFFFF");
    assert_eq!(send(&mut machine, "Q03"), "S0380001");
}

#[test]
fn position_minus_ten_reads_ffff6() {
    let (mut machine, sums) = moved_axis_3("P038000A", 10_000);
    assert_eq!(sums, [0, 0, 0, -10, 0]);
    assert_eq!(send(&mut machine, "q03"), "s03FFFF6");
}

#[test]
fn axis_2_minus_5000() {
    let mut machine = on();
    accept(&mut machine, &["P0281388", "P08F4240", "P0900FFF", "Q082"]);
    assert_eq!(ticks(&mut machine, 200_000, 0), [0, 0, -5_000, 0, 0]);
    assert_eq!(machine.travels(), [0, 0, 5_000, 0, 0]);
}

#[test]
fn manual_example_of_6_3() {
    let mut machine = on();
    let lines = ["P0002710", "P010C350", "P0203A98", "P03004E2", "P0404E20", "P0900FFF", "P08186A0", "Q081"];
    accept(&mut machine, &lines);
    until_rest(&mut machine, 0);
    assert_eq!(machine.travels(), [10_000, 50_000, 15_000, 1_250, 20_000]);
}
