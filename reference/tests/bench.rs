//! The bench program.

mod common;
use common::programs::printed;
use reference::bench::{read_tick_line, run};
use std::io::Write;
use std::process::{Command, Stdio};

/// What the bench program prints for an input.
fn bench(input: &[u8]) -> String {
    printed(run, input)
}

#[test]
fn printed_input() {
    let printed = "U0000000\nU0000000\nU0000000\nU0000000\nS0800000\n1 -1 0 0 0\ns01FFFFF\nS0600000\n";
    let input = "P0000001\nP0180001\nP08F4240\nP0900FFF\nQ080\nT 1000 000000\nq01\nQ06\n";
    assert_eq!(bench(input.as_bytes()), printed);
    assert_eq!(bench(input.trim_end().as_bytes()), printed);
}

#[test]
fn stored_files() {
    let input = include_bytes!("../data/printed.in");
    let output = include_str!("../data/printed.out");
    assert_eq!(bench(input), output);
}

#[test]
fn printed_input_through_the_program() {
    let mut program = Command::new(env!("CARGO_BIN_EXE_bench_reference"))
        .stdin(Stdio::piped())
        .stdout(Stdio::piped())
        .spawn()
        .unwrap();
    program.stdin.take().unwrap().write_all(include_bytes!("../data/printed.in")).unwrap();
    let output = program.wait_with_output().unwrap();
    assert!(output.status.success());
    assert_eq!(output.stdout, include_bytes!("../data/printed.out"));
}

#[test]
fn tick_line_form() {
    assert_eq!(read_tick_line(b"T 1 000000"), Some((1, 0)));
    assert_eq!(read_tick_line(b"T 1000000 fFaB09"), Some((1_000_000, 0xFFAB09)));
    let others: [&[u8]; 22] = [
        b"T",
        b"T ",
        b"T 1",
        b"T 1 ",
        b"T 1 00000",
        b"T 1 0000000",
        b"T 0 000000",
        b"T 01 000000",
        b"T 1000001 000000",
        b"T 10000000 000000",
        b"T  1 000000",
        b"T 1  000000",
        b"T 1 000000 ",
        b" T 1 000000",
        b"T\t1 000000",
        b"T +1 000000",
        b"T -1 000000",
        b"T 1 00000G",
        b"T1 000000",
        b"TT 1 000000",
        b"T 1 000000\r",
        b"T 4294967297 000000",
    ];
    for other in others {
        assert_eq!(read_tick_line(other), None, "{other:?}");
    }
}

#[test]
fn other_lines_with_t_print_a_question_mark() {
    assert_eq!(bench(b"T\nT 0 000000\nTq08\nT 1 000000\r\nT 2 000000"), "?\n?\n?\n?\n0 0 0 0 0\n");
}

#[test]
fn a_small_t_goes_to_the_controller() {
    assert_eq!(bench(b"t 1 000000\n"), "U0000004\n");
    assert_eq!(bench(b"t 000000\n"), "U0000005\n");
}

#[test]
fn empty_input_and_empty_lines() {
    assert_eq!(bench(b""), "");
    assert_eq!(bench(b"\n"), "U0000004\n");
    assert_eq!(bench(b"\n\n"), "U0000004\nU0000004\n");
    assert_eq!(bench(b"Q06"), "S0600000\n");
}

#[test]
fn a_0d_in_a_line_ends_a_line() {
    assert_eq!(bench(b"Q06\r\n"), "S0600000\nU0000004\n");
    assert_eq!(bench(b"Q06\rW0\rT 1 000000\n"), "S0600000\nU0000004\n");
}

#[test]
fn silent_lines_print_nothing() {
    assert_eq!(bench(b"Q46\nP4000001\nX4\nP4000001234567\nQ06\n"), "S0600000\n");
}

#[test]
fn any_bytes_and_long_lines() {
    let mut input = vec![b'P'; 3_000_000];
    input.push(b'\n');
    input.extend((0..=255u8).filter(|&byte| byte != b'\n' && byte != b'\r'));
    input.extend(b"\nQ06");
    assert_eq!(bench(&input), "U0000004\nU0000004\nS0600000\n");
}

#[test]
fn everything_prints_twelve_lines() {
    let printed = bench(b"T 1 abcdef\nq08000007\n");
    let lines: Vec<&str> = printed.lines().collect();
    assert_eq!(lines.len(), 13);
    assert_eq!(lines[1], "S00000007");
    assert_eq!(lines[12], "R0ABCDEF7");
}

#[test]
fn a_block_is_printed_before_the_totals() {
    assert_eq!(bench(b"W0ABCDEF1\nT 2499 000005\nT 1 123456\n"), "0 0 0 0 0\nR01234561\n0 0 0 0 0\n");
    assert_eq!(bench(b"W0\nW4\nT 2500 000000\nT 2500 000000\n"), "0 0 0 0 0\n0 0 0 0 0\n");
    assert_eq!(bench(b"W0\nT 1000000 abcdef\nT 2500 000000\n"), "R0ABCDEF\n0 0 0 0 0\n0 0 0 0 0\n");
    assert_eq!(bench(b"W0\nT 1000 000001\nT 1000 000002\nT 501 000003"), "0 0 0 0 0\n0 0 0 0 0\nR0000003\n0 0 0 0 0\n");
    assert_eq!(bench(b"W0\nT 2499 000000\nT 0 000000\nT 1 000009\n"), "0 0 0 0 0\n?\nR0000009\n0 0 0 0 0\n");
    assert_eq!(bench(b"Q06\rW0FFFFFF2\nT 2500 00000a\n"), "S0600000\nR000000A2\n0 0 0 0 0\n");
}

/// The printed move ends in tick 207, with one pulse of each axis, before the block of the same T line.
#[test]
fn a_block_in_a_t_line_that_moves() {
    let input = b"P0000001\nP0180001\nP08F4240\nP0900FFF\nW0\nQ080\nT 3000 000040\nW0\nq08\n";
    let printed = bench(input);
    assert!(printed.starts_with("U0000000\nU0000000\nU0000000\nU0000000\nS0800000\nR0000040\n1 -1 0 0 0\nS0000001\n"));
    assert!(printed.ends_with("s0400000\nR0000040\n"));
}
