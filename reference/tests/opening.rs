//! Paper 02, 2/14: the bench program turns the watch off before any input is read, and drops the reply.

mod common;
use common::programs::printed;
use common::{accept, on};
use reference::bench::{opened, run};
use reference::{watch_off_line, write_line, Command, CommandValue};

/// What the bench program prints for an input.
fn bench(input: &str) -> String {
    printed(run, input.as_bytes())
}

#[test]
fn the_first_line_finds_the_watch_off_and_nothing_else_altered() {
    let mut machine = on();
    assert_ne!(machine, opened());
    accept(&mut machine, &["P0B0"]);
    assert_eq!(machine, opened());
}

#[test]
fn everything_as_first_line_prints_twelve_blocks_alone() {
    let travels = "S0000000\nS0100000\nS0200000\nS0300000\nS0400000\nS0600000\n";
    let positions = "s0000000\ns0100000\ns0200000\ns0300000\ns0400000\nR0000000\n";
    assert_eq!(bench("q08"), format!("{travels}{positions}"));
    assert_eq!(bench("q08\n"), bench("q08"));
    assert_eq!(bench(""), "");
}

#[test]
fn a_slow_move_runs_on_past_the_full_count() {
    let input = "P0000002\nP0800001\nQ080\nT 1000000 000000\nT 10 000000\n";
    assert_eq!(bench(input), "U0000000\nU0000000\nS0800000\n0 0 0 0 0\n1 0 0 0 0\n");
}

#[test]
fn a_person_may_set_the_watch_and_turn_it_off() {
    let started = "U0000000\nU0000000\nU0000000\nS0800000\n0 0 0 0 0\n";
    let input = |watch: &str| format!("{watch}\nP0000002\nP0800001\nQ080\nT 1000000 000000\nT 10 000000\nQ06\n");
    assert_eq!(bench(&input("P0B1")), format!("{started}0 0 0 0 0\nS0600008\n"));
    assert_eq!(bench(&input("P0B0")), format!("{started}1 0 0 0 0\nS0600003\n"));
}

/// The writer's line of that command is a full one: the five bytes are an entry of their own.
#[test]
fn the_writer_keeps_its_full_line() {
    let value = CommandValue { command: Command::Watch(0), silent: false, identification: None };
    let mut buf = [0x55; 10];
    assert_eq!(write_line(&value, &mut buf), Ok(9));
    assert_eq!(&buf, b"P0B00000\r\x55");
    assert_ne!(buf[..5], watch_off_line());
}
