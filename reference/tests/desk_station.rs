//! Desk: commands of an MD5230D station, the page's section on them, and the stored session.

mod common;
use common::programs::printed;
use reference::desk::{answer, SENTENCES};
use reference::make_desk::desk_text;
use reference::station::NAMES;
use reference::{bench, desk};
use std::{fs, io::BufReader};

/// A file of the folder of pages.
fn page(name: &str) -> String {
    fs::read_to_string(format!("{}/../docs/{name}", env!("CARGO_MANIFEST_DIR"))).unwrap()
}

/// The section "Lines of the other bench make" of the page on the line protocol.
fn section() -> String {
    let page = page("PROTOCOL.md");
    let behind = page.split_once("\n## Lines of the other bench make\n").unwrap().1;
    behind.split_once("\n## ").unwrap().0.to_string()
}

/// What stands between backquotes.
fn quoted(text: &str) -> Vec<String> {
    text.split('`').skip(1).step_by(2).map(str::to_string).collect()
}

/// The cells of the rows of the table with this heading.
fn rows(heading: &str) -> Vec<Vec<String>> {
    let section = section();
    let table = section.split_once(heading).unwrap().1.lines().skip(2).take_while(|line| line.starts_with('|'));
    table.map(|line| line.trim_matches('|').split('|').map(|cell| cell.trim().to_string()).collect()).collect()
}

/// What a number prints.
fn away(number: usize) -> String {
    format!("turned away by {number}: {}\n", SENTENCES[number - 1])
}

/// Lines that a number turns away.
fn turned_away(number: usize, lines: &[&str]) {
    for line in lines {
        assert_eq!(answer(line.as_bytes()), away(number), "{line}");
    }
}

/// Lines and what each prints, a space in the place of each line feed.
fn told(pairs: &[(&str, &str)]) {
    for (line, printed) in pairs {
        assert_eq!(answer(line.as_bytes()), format!("{}\n", printed.replace(' ', "\n")), "{line}");
    }
}

/// The commands of the first table, each with its lines; those that a row names beside its own print the same.
fn first_table() -> Vec<String> {
    let mut lines = Vec::new();
    for row in rows("| Command | What it asks for | What is printed, a line each |") {
        let printed = quoted(&row[2]).join("\n") + "\n";
        for command in [quoted(&row[0]), quoted(&row[1])].concat() {
            assert_eq!(answer(command.as_bytes()), printed, "{command}");
            lines.push(command);
        }
    }
    lines
}

/// The examples of the second table, each with its number.
fn second_table() -> Vec<String> {
    let mut lines = Vec::new();
    for row in rows("| Number | For | Example |") {
        let examples = quoted(&row[2]);
        turned_away(row[0].parse().unwrap(), &examples.iter().map(String::as_str).collect::<Vec<&str>>());
        lines.extend(examples);
    }
    lines
}

/// "`words` prints `what is printed`" of the text.
fn texts() -> Vec<String> {
    let text = section().split_whitespace().collect::<Vec<&str>>().join(" ");
    let parts: Vec<&str> = text.split('`').collect();
    let examples: Vec<&[&str]> = parts.windows(3).filter(|three| three[1] == " prints ").collect();
    for three in &examples {
        assert_eq!(answer(three[0].as_bytes()), format!("{}\n", three[2]), "{}", three[0]);
    }
    examples.into_iter().map(|three| three[0].to_string()).collect()
}

#[test]
fn every_example_of_the_page_is_stored() {
    let (first, second, texts) = (first_table(), second_table(), texts());
    assert_eq!((first.len(), second.len(), texts.len()), (8, 13, 3));
    assert!(section().contains("echo 'LNI X -20000, Y 20000' | target/bin/desk"));
    assert!(section().contains("`spd X 5` has no such form") && section().contains("also as `-0`"));
    assert_eq!(answer(b"spd X 5"), "? speed 2500.25\n");
    assert_eq!(answer(b"INC X -0"), answer(b"INC X 0"));
    let text = desk_text();
    let stored: Vec<&[u8]> = text.split(|&byte| byte == b'\n').collect();
    for line in [first, second, texts, vec!["spd X 5".to_string(), "INC X -0".to_string()]].concat() {
        assert!(stored.contains(&line.as_bytes()), "{line}");
    }
}

/// The page's names are those of the converter, in the same order.
#[test]
fn the_names_of_the_page() {
    let text = section().split_whitespace().collect::<Vec<&str>>().join(" ");
    let names = text.split_once("The 39 names: ").unwrap().1.split_once('.').unwrap().0;
    let names: Vec<&[u8]> = names.split(", ").map(str::as_bytes).collect();
    assert_eq!(names, NAMES);
}

#[test]
fn lines_of_a_station() {
    told(&[("SPD Y 100000", "P0861A80"), ("SPD X 250000", "P08F4240"), ("SPD X 0001", "P0800004")]);
    told(&[("INC Y 7", "P0000000 P0100007 P0200000 P0300000 P0400000 Q0810000")]);
    told(&[("LNI X -7, Y 8", "P0080007 P0100008 P0200000 P0300000 P0400000 Q0810000")]);
    told(&[("LNI X 0,Y -0", "P0000000 P0100000 P0200000 P0300000 P0400000 Q0800000")]);
    turned_away(27, &["SPD", "SPD X", "INC X 5 ", "LNI X 1 Y 1", "SST Y,X", "SST  X", "SST X\r", "SST X\0", "EEV"]);
    turned_away(28, &["SAP X 1", "RDR", "RST X", "ABS", "ABS \0", "PRG STA X P01", "OUT  "]);
    turned_away(29, &["SPD Y 0", "INC Y 524288", "SPD X 4294967301", "LNI X 1,Y -18446744073709551619"]);
}

/// Three capitals go before reply blocks; two and four do not.
#[test]
fn next_to_reply_blocks() {
    turned_away(27, &["SAF", "SEE", "SEE U", "UAB", "RES", "RAF 1", "SDR 0 0 0 0"]);
    turned_away(20, &["RESET", "RESE", "SA", "SA X 1", "SAFE", "SAP0", "SA0 X 1", "S0F X 1", "sAP X 1", "SAP\r"]);
}

/// Three capitals go before words; neither `silent` nor `as` goes with them.
#[test]
fn next_to_words() {
    turned_away(
        27,
        &["FOO", "FOO as 1", "SPD X 5 as A", "SST X as A", "SST silent", "LOW", "LOW 00010", "STA", "AAA", "ZZZ 1"],
    );
    turned_away(28, &["RST as A"]);
    for line in ["SPDX 1", "SPd X 1", "silent SPD X 5", "spd X 5"] {
        assert_eq!(answer(line.as_bytes()), "? speed 2500.25\n", "{line}");
    }
    for line in ["FO X", "F X 1", "FOOO X 1", "Foo X 1", " SST X", "@AA X 1", "AA[ X 1", "A-B", "A1B X 1", "silent FOO"]
    {
        assert!(answer(line.as_bytes()).starts_with("? start, travel, "), "{line}");
    }
    for line in [&b"SST\tX"[..], b"SST\r", b"SST\0", b"SST\0X", b"silent SST X"] {
        assert_eq!(answer(line), "? start 0, start 0 after dwell\n");
    }
}

/// Of 100 characters and more a command has no form.
#[test]
fn over_long_commands() {
    for (before, behind, printed) in [
        ("INC X ", "5", "P0000005\nP0100000\nP0200000\nP0300000\nP0400000\nQ0800000\n".to_string()),
        ("INC Y -", "524288", away(29)),
        ("SPD X ", "5A", away(27)),
    ] {
        let line = |length: usize| format!("{before}{}{behind}", "0".repeat(length - before.len() - behind.len()));
        assert_eq!(answer(line(99).as_bytes()), printed);
        for length in [100, 101, 5_000] {
            assert!(answer(line(length).as_bytes()).starts_with("? "));
        }
    }
    assert_eq!(answer(format!("SPD X {}", "9".repeat(93)).as_bytes()), away(29));
    assert_eq!(answer(format!("SPD X {}", "9".repeat(94)).as_bytes()), "? speed 2500.25\n");
}

/// The program: six lines for a move, one for each other line.
#[test]
fn a_move_prints_six_lines() {
    let run = |input: &'static [u8]| printed(|input, output| desk::run(BufReader::new(input), output), input);
    assert_eq!(run(b"SST X\nINC X 1\nstop").lines().count(), 8);
    assert_eq!(run(b"INC X 1"), "P0000001\nP0100000\nP0200000\nP0300000\nP0400000\nQ0800000\n");
}

/// The stored session: from station lines to the positions that they name.
#[test]
fn the_stored_session() {
    let desk = |input: &str| printed(|input, output| desk::run(BufReader::new(input), output), input.as_bytes());
    let told = desk(&printed(bench::run, desk(&page("station.txt")).as_bytes()));
    assert_eq!(told, page("station.out"));
    let (x, y) = (-20_000 + 7, 20_000 - 500 - 3);
    let last: Vec<&str> = told.lines().rev().take(4).collect();
    assert_eq!(last, ["status 0: at rest", "position 2 0", &format!("position 1 {y}"), &format!("position 0 {x}")]);
    let away: Vec<&str> = told.lines().filter(|line| line.starts_with("turned away")).collect();
    assert_eq!(away, [15, 4, 4].map(|number| format!("turned away by {number}: {}", SENTENCES[number - 1])));
}
