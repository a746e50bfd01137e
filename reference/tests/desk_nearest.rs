//! Desk: nearest forms, over-long lines and odd bytes.

use reference::desk::{answer, FORMS, OVER_LONG};

/// What a line prints where no word has a letter in common with it.
fn all_words() -> String {
    format!("? {}\n", FORMS.map(|(word, _)| word).join(", "))
}

/// What a line prints whose nearest word is this one.
fn form_of(word: &str) -> String {
    let form = FORMS.iter().find(|(other, _)| *other == word).unwrap().1;
    format!("? {form}\n")
}

/// Lines, and the word that is nearest to all of them.
fn nearest(word: &str, lines: &[&str]) {
    for line in lines {
        assert_eq!(answer(line.as_bytes()), form_of(word), "{line}");
    }
}

#[test]
fn the_most_letters_in_common() {
    nearest("start", &["s", "S", "st", "sta", "star", "starts 0", "strt 0", "set", "silent", "start 0 please"]);
    nearest("status", &["stat", "Status", "STATUSES", "status 0"]);
    nearest("stop", &["sto", "STOP", "stopp", "stop\r", "stop\t", "stop!"]);
    nearest("speed", &["sp", "spd", "Speed 5", "spill"]);
    nearest("slope", &["sl", "slow"]);
    nearest("travel", &["t", "T 1000 000000", "tr", "to"]);
    nearest("ticks", &["ti", "tick", "TICKS 10", "silent ticks 5"]);
    nearest("trial", &["tri", "Trial 0", "trials", "silent trial 0"]);
    nearest("position", &["p", "P0B0", "po", "pulses 0 0 0 0 0", "please stop"]);
    nearest("polarity", &["pol"]);
    nearest("dwell", &["d", "dw", "drop"]);
    nearest("distance", &["di", "dist 1 5"]);
    nearest("outputs", &["o", "ou", "out"]);
    nearest("opening", &["op", "OPEN"]);
    nearest("watch", &["w", "W0", "wait"]);
    nearest("high", &["h", "help", "high"]);
    nearest("everything", &["e", "exit"]);
    nearest("inputs", &["i", "in", "inputs 0"]);
    nearest("clear", &["c", "C", "clr", "continue", "cl on"]);
    nearest("carry", &["carry", "ca", "CARRY ON", "Carry on", "carry On", "carry off", "carry on 0", "carryon"]);
    nearest("carry", &["carry  on", "carry on ", "carry on\r", "carry as A", "silent carry", "silent carry off as B"]);
    nearest("reset", &["r", "R", "Reset", "resume"]);
    nearest("master", &["m", "mister"]);
    nearest("low", &["l", "Low 1"]);
}

#[test]
fn no_letter_in_common() {
    let lines =
        ["", " ", "?", "quit", "a", "5", "-stop", " stop", "  stop", "\tstop", "silent ", "silent  stop", "silent x"];
    for line in
        lines.into_iter().chain([" as A", "as A", "silent as A", "silent  as A", "Q0800000", "# stop", "go start 0"])
    {
        assert_eq!(answer(line.as_bytes()), all_words(), "{line}");
    }
}

/// Each word alone with all its letters, in capitals and with letters behind it, has its own form.
#[test]
fn each_word_is_nearest_to_itself() {
    for (word, _) in FORMS {
        let capitals = word.to_uppercase();
        for line in [format!("{word}x"), format!("x{word}"), format!("{word}  "), format!("silent {word}x as A")] {
            let expected = if line.starts_with('x') { all_words() } else { form_of(word) };
            assert_eq!(answer(line.as_bytes()), expected, "{line}");
        }
        // RESET begins as a block does: R and then E. LOW is three capitals, a station's command.
        if word != "reset" && word != "low" {
            assert_eq!(answer(format!("{capitals} x").as_bytes()), form_of(word), "{capitals}");
        }
    }
}

/// Leading zeros make a line in a good form so long; from 100 characters on it has none.
#[test]
fn over_long_lines_have_no_form() {
    for length in [OVER_LONG - 1, OVER_LONG, OVER_LONG + 1, 249, 250, 251, 5_000, 3_000_000] {
        for (word, before, behind, line) in
            [("dwell", "dwell ", "20", "P0A00014"), ("travel", "silent travel ", "3 as B", "Q4300000B")]
        {
            let zeros = "0".repeat(length - before.len() - behind.len());
            let expected = if length < OVER_LONG { format!("{line}\n") } else { form_of(word) };
            assert_eq!(answer(format!("{before}{zeros}{behind}").as_bytes()), expected, "{length}");
        }
        assert_eq!(answer(&vec![b'x'; length]), all_words());
        assert_eq!(answer(&vec![255; length]), all_words());
    }
}

#[test]
fn odd_bytes() {
    for byte in (0..=255u8).filter(|byte| !byte.is_ascii_alphanumeric() && !b"\n -".contains(byte)) {
        let odd: &[u8] = &[byte];
        assert_eq!(answer(odd), all_words());
        assert_eq!(answer(&[b"stop", odd].concat()), form_of("stop"));
        assert_eq!(answer(&[odd, b"stop"].concat()), all_words());
        assert_eq!(answer(&[b"dwell", odd, b"20"].concat()), form_of("dwell"));
        assert_eq!(answer(&[b"dwell 2", odd, b"0"].concat()), form_of("dwell"));
        assert_eq!(answer(&[b"1 -1 0 0 ", odd].concat()), all_words());
    }
}

/// Every line of up to two bytes, and drawn ones, none of them a station's move, print one line in characters that a
/// terminal shows.
#[test]
fn every_line_has_one_answer() {
    let mut lines: Vec<Vec<u8>> = (0..=255).map(|byte| vec![byte]).collect();
    lines.extend((0..=65_535u16).map(|pair| pair.to_be_bytes().to_vec()));
    let mut drawn = 1u64;
    for length in (0..20_000).map(|round| round % 120) {
        lines.push((0..length).map(|_| draw(&mut drawn)).collect());
    }
    for line in lines {
        let printed = answer(&line);
        let (text, feed) = printed.split_at(printed.len() - 1);
        assert_eq!(feed, "\n");
        assert!(!text.is_empty() && text.bytes().all(|byte| (32..127).contains(&byte)), "{line:?}");
    }
}

/// The next drawn byte, of letters of the words more often than of others.
fn draw(drawn: &mut u64) -> u8 {
    *drawn = drawn.wrapping_mul(6_364_136_223_846_793_005).wrapping_add(1_442_695_040_888_963_407);
    let high = (*drawn >> 40) as usize;
    if high % 5 == 0 {
        (high >> 8) as u8
    } else {
        b"USsR0123456789ABCDEF -. silent stop as A"[(high >> 8) % 40]
    }
}
