//! Desk: words that become lines, their numbers and figures, `silent` and `as`.

use reference::desk::answer;

/// What 19 and 21 print.
const NO_LINE: &str = "turned away by 19: no line has this value";
const NO_FIGURE: &str = "turned away by 21: a figure is not exact or out of range";

/// Lines and what each prints, without its line feed.
fn told(pairs: &[(&str, &str)]) {
    for (line, printed) in pairs {
        assert_eq!(answer(line.as_bytes()), format!("{printed}\n"), "{line}");
    }
}

/// Lines that all print the same.
fn all_told(lines: &[&str], printed: &str) {
    for line in lines {
        told(&[(line, printed)]);
    }
}

#[test]
fn every_word_with_the_ends_of_its_range() {
    told(&[("start 4", "Q0840000"), ("start 4 after dwell", "Q08C0000"), ("travel 0", "Q0000000")]);
    told(&[("travel 4", "Q0400000"), ("position 0", "q0000000"), ("position 4", "q0400000")]);
    told(&[("dwell 0", "P0A00000"), ("dwell 16383", "P0A03FFF"), ("watch 0", "P0B00000"), ("watch 3", "P0B30000")]);
    told(&[("polarity 0", "P0C00000"), ("polarity FFF", "P0C00FFF"), ("low 33FF", "Q0D033FF")]);
    told(&[("high 0", "Q0E00000"), ("high 33ff", "Q0E033FF"), ("outputs 0", "W0000000")]);
    told(&[("outputs FFFFFF", "W0FFFFFF"), ("distance 0 524287", "P007FFFF"), ("distance 4 -524287", "P04FFFFF")]);
    told(&[("distance 0 0", "P0000000"), ("distance 0 -0", "P0080000")]);
}

#[test]
fn values_without_a_line() {
    all_told(&["start 5", "start 256", "start 5 after dwell", "travel 5", "travel 260", "position 5"], NO_LINE);
    all_told(&["dwell 16384", "dwell 4294967296", "watch 4", "watch 256", "watch 259", "polarity 1000"], NO_LINE);
    all_told(&["low 400", "low 4000", "low 100000", "high 800", "high 100000000", "outputs 1000000"], NO_LINE);
    all_told(&["outputs 100000000", "distance 5 1", "distance 256 1", "distance 0 524288"], NO_LINE);
    all_told(&["distance 0 -524288", "distance 0 4294967296", "distance 0 99999999999999999999"], NO_LINE);
}

#[test]
fn leading_zeros_and_small_letters() {
    told(&[
        ("start 0004", "Q0840000"),
        ("dwell 00000000000000000020", "P0A00014"),
        ("outputs 00000000abCDef", "W0ABCDEF"),
    ]);
    told(&[("distance 01 -0000007", "P0180007"), ("speed 0002500.2500", "P0802711"), ("polarity f", "P0C0000F")]);
}

#[test]
fn exact_figures() {
    told(&[("speed 0.25", "P0800001"), ("speed 0.5", "P0800002"), ("speed 0.75", "P0800003"), ("speed 1", "P0800004")]);
    told(&[("speed 250000", "P08F4240"), ("speed 249999.75", "P08F423F"), ("speed 1.000", "P0800004")]);
    told(&[
        ("slope 1.25", "P0900001"),
        ("slope 2.50", "P0900002"),
        ("slope 5", "P0900004"),
        ("slope 5118.75", "P0900FFF"),
    ]);
}

/// Every setting in range is read from the text of its figure, n/4 or 5n/4.
#[test]
fn every_setting() {
    for n in (1..=1_000_000u32).step_by(7).chain([999_999, 1_000_000]) {
        let text = format!("speed {}.{:02}", n / 4, n % 4 * 25);
        assert_eq!(answer(text.as_bytes()), format!("P08{n:05X}\n"));
    }
    for n in 1..=4_095u32 {
        let text = format!("slope {}.{:02}", n * 5 / 4, n * 5 % 4 * 25);
        assert_eq!(answer(text.as_bytes()), format!("P09{n:05X}\n"));
    }
}

/// The long ones differ from a quarter by less than f64 can tell; the large ones are in range to whoever counts their
/// quarters in 32 or 64 bits.
#[test]
fn inexact_figures() {
    all_told(
        &["speed 0", "speed -0", "speed -0.25", "speed 250000.25", "speed 0.3", "speed 0.2", "speed 0.125"],
        NO_FIGURE,
    );
    all_told(&["speed 0.24999999999999999999999999", "speed 0.25000000000000000000000001"], NO_FIGURE);
    all_told(&["speed 1073741824.25", "speed 4611686018427387904.25", "slope 1073741825.25"], NO_FIGURE);
    all_told(
        &["slope 0", "slope -1.25", "slope 1", "slope 1.5", "slope 5120", "slope 1.250000000000000000000001"],
        NO_FIGURE,
    );
}

#[test]
fn malformed_figures_have_no_form() {
    let none =
        ["speed", "speed ", "speed .5", "speed 5.", "speed -", "speed -.5", "speed +5", "speed 1e3", "speed --5"];
    all_told(&none, "? speed 2500.25");
    all_told(&["speed 1.5.0", "speed 1.-5", "speed 2,500", "speed inf", "speed 5 Hz"], "? speed 2500.25");
    all_told(&["slope .", "slope -.", "slope x", "slope 5 0"], "? slope 1250");
}

#[test]
fn malformed_numbers_have_no_form() {
    all_told(&["dwell", "dwell ", "dwell -1", "dwell +1", "dwell A", "dwell 1.0", "dwell 1 2"], "? dwell 20");
    all_told(&["low -1", "low 0x10", "low G", "low 1 1"], "? low 00010");
    let none = ["start", "start -1", "start 0 0", "start 0 after", "start after dwell", "start 0 after dwell 0"];
    all_told(&none, "? start 0, start 0 after dwell");
    all_told(&["distance 1", "distance 1 -", "distance 1 +1", "distance -1 1", "distance 1 1 1"], "? distance 2 -5000");
    all_told(&["stop 0", "stop ", "stop stop"], "? stop");
}

#[test]
fn silent_and_identified() {
    told(&[("silent stop", "Q4900000"), ("stop as A", "Q0900000A"), ("silent stop as 0", "Q49000000")]);
    told(&[
        ("silent start 3 after dwell as F", "Q48B0000F"),
        ("silent inputs", "W4"),
        ("silent outputs AB", "W40000AB"),
    ]);
    told(&[("speed 1 as 9", "P08000049"), ("distance 2 -5000 as B", "P0281388B"), ("everything as 7", "q08000007")]);
    told(&[("stop as a", "Q0900000a"), ("outputs abcdef as f", "W0ABCDEFf"), ("silent reset as c", "Q4B00000c")]);
}

#[test]
fn identifications_without_a_line() {
    all_told(&["stop as `", "stop as g", "stop as G", "stop as z", "stop as /", "stop as :", "stop as @"], NO_LINE);
    all_told(&["stop as  ", "inputs as A", "inputs as a", "silent inputs as 0", "inputs as z"], NO_LINE);
    all_told(&["dwell 16384 as A", "dwell 16384 as a"], NO_LINE);
    for character in (0..=255u8).filter(|&character| character != b'\n') {
        let printed = answer(&[b"stop as ", &[character][..]].concat());
        let good = matches!(character, b'0'..=b'9' | b'A'..=b'F' | b'a'..=b'f');
        let expected = if good { format!("Q0900000{}\n", character as char) } else { format!("{NO_LINE}\n") };
        assert_eq!(printed, expected);
    }
}

/// A figure is judged before there is a command value for the writer.
#[test]
fn a_figure_goes_before_an_identification() {
    told(&[("speed 0.3 as z", NO_FIGURE), ("speed 5 as z", NO_LINE), ("speed x as z", "? speed 2500.25")]);
}

#[test]
fn silent_and_as_in_other_places() {
    all_told(&["stop as", "stop as ", "stop as AB", "stop as A ", "stop  as A", "stop asA", "stop As A"], "? stop");
    all_told(&["stop as A as B", "stop silent", "silent stop ", "silent Stop as A"], "? stop");
    all_told(&["silent", "Silent stop", "silent silent stop", "silentstop"], "? start 0, start 0 after dwell");
}

#[test]
fn program_words() {
    told(&[("opening", "P0B0"), ("master 0 0 0 0 0", "master 0"), ("master 0 3 2 3 1", "master 1")]);
    told(&[("master 5 6 7 8 8", "master 3"), ("master 0 0 0 0 1", "master 4"), ("master 0 0 00009 1 1", "master 2")]);
    told(&[("master 0 4294967295 4294967296 0 0", "master 1"), ("ticks 1", "T 1 000000")]);
    told(&[
        ("ticks 1000000", "T 1000000 000000"),
        ("ticks 0001000 00abcd", "T 1000 00ABCD"),
        ("ticks 1 0", "T 1 000000"),
    ]);
    all_told(&["ticks 1 1000000", "ticks 1 100000000"], "turned away by 3: an input word is over FFFFFF");
}

#[test]
fn program_words_without_a_form() {
    let none =
        ["ticks 0", "ticks 1000001", "ticks 4294967297", "ticks -1", "ticks 1 G", "ticks 0 1000000", "ticks 1 0 0"];
    all_told(&none, "? ticks 1000, ticks 1000 000010");
    all_told(&["silent ticks 5", "ticks 5 as A", "ticks 5 0 as A"], "? ticks 1000, ticks 1000 000010");
    all_told(&["master 5 2 3 0", "master 5 2 3 0 0 0", "master 5 2 3 0 -1", "master"], "? master 5 2 3 0 0");
    all_told(&["silent master 5 2 3 0 0", "master 5 2 3 0 0 as 0", "master 5 2 3 0 as 0"], "? master 5 2 3 0 0");
    all_told(&["opening 0", "silent opening", "opening as A", "Opening"], "? opening");
}
