//! Desk: each row of the tables of the page on the line protocol, section "From words", and its stored input.

use reference::desk::{answer, SENTENCES};
use reference::make_desk::desk_text;
use std::fs;

/// The section "From words" of the page.
fn section() -> String {
    let page = fs::read_to_string(concat!(env!("CARGO_MANIFEST_DIR"), "/../docs/PROTOCOL.md")).unwrap();
    let behind = page.split_once("\n## From words\n").unwrap().1;
    behind.split_once("\n## ").unwrap().0.to_string()
}

/// The rows of the table with this heading, each cell without its quotes.
fn rows(heading: &str) -> Vec<Vec<String>> {
    let section = section();
    let behind = section.split_once(heading).unwrap().1;
    let table = behind.lines().skip(2).take_while(|line| line.starts_with('|'));
    table
        .map(|line| line.trim_matches('|').split('|').map(|cell| cell.trim().trim_matches('`').to_string()).collect())
        .collect()
}

/// The headings of the tables with examples, in the order of the page.
const HEADINGS: [&str; 4] = [
    "| Words | What they ask for | Line |",
    "| Words, with neither `silent` nor `as` | What is printed | Example |",
    "| Line | What is printed |",
    "| Reply | In words |",
];

/// The first cells of the table with this heading, of which each row prints its last cell.
fn rows_hold(heading: &str) -> Vec<String> {
    let rows = rows(heading);
    assert!(!rows.is_empty());
    for row in &rows {
        assert_eq!(answer(row[0].as_bytes()), format!("{}\n", row[row.len() - 1]), "{}", row[0]);
    }
    rows.into_iter().map(|row| row[0].clone()).collect()
}

/// The examples in the text under the first two tables: "`words` prints `what is printed`", in the order of the page,
/// those before this heading or those from it on.
fn texts_hold(heading: &str, before: bool) -> Vec<String> {
    let section = section();
    let (above, under) = section.split_once(heading).unwrap();
    let part = if before { above } else { under };
    let text = part.split_whitespace().collect::<Vec<&str>>().join(" ");
    let quoted: Vec<&str> = text.split('`').collect();
    let examples: Vec<&[&str]> = quoted.windows(3).filter(|three| three[1] == " prints ").collect();
    for three in &examples {
        assert_eq!(answer(three[0].as_bytes()), format!("{}\n", three[2]), "{}", three[0]);
    }
    examples.into_iter().map(|three| three[0].to_string()).collect()
}

/// `RESET`, of rule 3; then the first cells of all tables with examples, and those of the text, as the page has them.
fn examples() -> Vec<String> {
    assert!(section().contains("The capitals `RESET` are such a line: 20."));
    assert!(answer(b"RESET").starts_with("turned away by 20: "));
    let mut lines = vec!["RESET".to_string()];
    lines.extend(rows_hold(HEADINGS[0]));
    lines.extend(texts_hold(HEADINGS[1], true));
    lines.extend(rows_hold(HEADINGS[1]));
    lines.extend(texts_hold(HEADINGS[1], false));
    lines.extend(HEADINGS[2..].iter().flat_map(|heading| rows_hold(heading)));
    lines
}

#[test]
fn the_tables_in_their_order() {
    let section = section();
    let places = HEADINGS.map(|heading| section.find(heading).unwrap());
    assert!(places.is_sorted());
    let texts: Vec<usize> = section
        .match_indices("` prints\n")
        .chain(section.match_indices("` prints `"))
        .map(|(place, _)| place)
        .collect();
    assert!(texts.iter().all(|place| (places[0]..places[2]).contains(place)));
}

#[test]
fn each_row_of_the_page() {
    examples();
    let sentences: Vec<String> = rows("| Number | Sentence |").into_iter().map(|row| row[1].clone()).collect();
    assert_eq!(sentences, SENTENCES);
}

#[test]
fn the_stored_input_begins_with_the_page() {
    let text = desk_text();
    let stored: Vec<&[u8]> = text.split(|&byte| byte == b'\n').collect();
    let examples = examples();
    assert!(examples.len() < stored.len());
    for (line, example) in stored.iter().zip(examples) {
        assert_eq!(*line, example.as_bytes());
    }
}

#[test]
fn what_the_stored_input_reaches() {
    let text = desk_text();
    let stored: Vec<&[u8]> = text.split(|&byte| byte == b'\n').collect();
    assert!(stored.len() <= 1_400 && !stored[stored.len() - 1].is_empty());
    let printed: Vec<String> = stored.iter().map(|line| answer(line)).collect();
    for number in [3, 4, 5, 6, 7, 8, 9, 10, 11, 12, 13, 14, 15, 16, 17, 19, 20, 21, 25, 26, 27, 28, 29] {
        let begins = format!("turned away by {number}: ");
        assert!(printed.iter().any(|line| line.starts_with(&begins)), "{number}");
    }
    for number in [1, 2, 18, 22, 23, 24] {
        let begins = format!("turned away by {number}: ");
        assert!(!printed.iter().any(|line| line.starts_with(&begins)), "{number}");
    }
    for (_, form) in reference::desk::FORMS {
        assert!(printed.contains(&format!("? {form}\n")), "{form}");
    }
    for length in [99, 100, 101, 249, 250, 251, 5_000] {
        assert!(stored.iter().any(|line| line.len() == length), "{length}");
    }
    for byte in (0..=255u8).filter(|byte| [0, 9, 13, 127, 128, 255].contains(byte)) {
        assert!(text.contains(&byte));
    }
}
