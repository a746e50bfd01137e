//! Preview: the examples of the page on the line protocol, section "A dose on screen first", by the words of its dose.

mod common;
use common::programs::printed;
use reference::preview::OTHER_FORM;
use reference::{bench, desk, preview};
use std::fs;
use std::io::BufReader;

/// A file of the documents.
fn document(name: &str) -> String {
    fs::read_to_string(format!("{}/../docs/{name}", env!("CARGO_MANIFEST_DIR"))).unwrap()
}

/// The section of the page.
fn section() -> String {
    let page = document("PROTOCOL.md");
    let behind = page.split_once("\n## A dose on screen first\n").unwrap().1;
    behind.split_once("\n## ").unwrap().0.to_string()
}

/// What the words of the page's dose come to on screen.
fn shown() -> String {
    let words = document("trial.txt");
    let lines = printed(|input, output| desk::run(BufReader::new(input), output), words.as_bytes());
    printed(|input, output| preview::run(BufReader::new(input), output), lines.as_bytes())
}

/// The page's screen of six lines is the first that its dose shows.
#[test]
fn the_screen_of_the_page() {
    let section = section();
    let blocks = section.lines().filter_map(|line| line.strip_prefix("    "));
    let screen: Vec<&str> = blocks.skip_while(|line| !line.starts_with("master")).collect();
    let shown = shown();
    let first: Vec<&str> = shown.lines().skip_while(|line| !line.starts_with("master")).take(6).collect();
    assert_eq!(screen, first);
}

/// The other lines that the section quotes.
#[test]
fn the_lines_of_the_page() {
    let text = section().split_whitespace().collect::<Vec<&str>>().join(" ");
    let shown = shown();
    for line in
        ["master 0: does not end in 1000 ticks, 0.004000 s", "turned away by 14: an axis is longer than the master"]
    {
        assert!(text.contains(&format!("`{line}`")) && shown.lines().any(|other| other == line), "{line}");
    }
    assert!(text.contains(&format!("`{}`", OTHER_FORM.trim_end())));
    assert_eq!(shown.lines().last(), Some("status 0: at rest"));
}

/// To the bench program the page's D line is turned away.
#[test]
fn a_d_line_at_the_bench() {
    let told = printed(bench::run, b"D 0 1000000 000000\nD 0 1 0\nQ06");
    assert_eq!(told, "U0000004\nU0000005\nS0600000\n");
}
