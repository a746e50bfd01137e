//! Stored inputs: the identifications of either case that they reach (paper 02, 7/14).

mod common;
use common::stored_lists::{stored_list, stored_lists};
use reference::bench::{obey, opened};
use reference::desk::answer;
use reference::lists::{Call, List};
use reference::make_desk::desk_text;
use reference::make_host::host_text;
use reference::make_preview::preview_text;
use reference::{front, vectors, Machine};
use std::collections::BTreeSet;
use std::fs;

/// The 22 identifications, and the characters next to 0-9, A-F and a-f.
const ALL: &str = "0123456789ABCDEFabcdef";
const NEXT: &str = "/:@G`g";

/// The blocks of every form: the letter with the code, U with its number; of W lines R.
const FORMS: [&str; 21] = [
    "U00", "U08", "U0A", "U0B", "U0C", "U0D", "U0E", "U0F", "U10", "U11", "U1A", "S0", "S6", "S8", "S9", "SA", "SB",
    "SC", "SD", "SE", "s0",
];

/// The form of a block without its 0D: of U the last two digits, of S and s the code, of R none.
fn form(block: &str) -> String {
    match &block[..1] {
        "U" => format!("U{}", &block[6..8]),
        "R" => "R".to_string(),
        letter => format!("{letter}{}", &block[2..3]),
    }
}

/// Blocks by form and identification, if any; then lines of which the ninth character led to 7.
#[derive(Default)]
struct Met {
    blocks: BTreeSet<(String, Option<char>)>,
    sevens: BTreeSet<char>,
}

impl Met {
    fn printed(&mut self, line: &str, told: &str) {
        for block in told.lines().filter(|text| text.starts_with(['U', 'S', 's', 'R'])) {
            self.blocks.insert((form(block), block.chars().nth(8)));
        }
        if told.trim_end() == "U0000007" {
            self.sevens.extend(line.chars().nth(8));
        }
    }

    /// Every form with each of the 22, the blocks of q 8 and of W lines among them; 4 to 7 with none.
    fn reaches_all(&self, forms: &[&str]) {
        for form in forms.iter().chain(&["R"]) {
            for id in ALL.chars() {
                assert!(self.blocks.contains(&(form.to_string(), Some(id))), "{form} {id}");
            }
        }
        for form in ["U04", "U05", "U06", "U07", "U09"] {
            let of_form: Vec<_> = self.blocks.iter().filter(|(other, _)| other == form).collect();
            assert!(of_form.iter().all(|(_, id)| id.is_none()), "{form}");
        }
        assert!(NEXT.chars().all(|next| self.sevens.contains(&next)), "{:?}", self.sevens);
        assert!(!self.blocks.iter().any(|(_, id)| id.is_some_and(|id| !ALL.contains(id))));
    }
}

/// The session of its own: what its lines print, and that many stand behind a line that differs in case alone.
#[test]
fn the_stored_session() {
    let path = concat!(env!("CARGO_MANIFEST_DIR"), "/../crates/vectors/data/identification.in");
    let session = fs::read_to_string(path).unwrap();
    let (mut met, mut machine) = (Met::default(), opened());
    let mut settled = BTreeSet::new();
    for line in session.lines() {
        let mut told = Vec::new();
        obey(&mut machine, line.as_bytes(), &mut told).unwrap();
        let told = String::from_utf8(told).unwrap();
        met.printed(line, &told);
        if line.starts_with('T') {
            settled.extend(told.strip_prefix('R').and_then(|block| block.chars().nth(7)));
        }
    }
    met.reaches_all(&FORMS);
    assert!(["U04", "U05", "U06", "U07", "U09"].iter().all(|form| met.blocks.contains(&(form.to_string(), None))));
    assert!(ALL.chars().all(|id| settled.contains(&id)));
    let lines: Vec<&str> = session.lines().collect();
    let alike = |pair: &&[&str]| pair[0] != pair[1] && pair[0].eq_ignore_ascii_case(pair[1]);
    assert!(lines.windows(2).filter(alike).count() >= 18);
}

/// A list goes to a controller of its first switch; each line with its reply, each tick with its block.
fn play(met: &mut Met, list: &List) {
    let mut machine = Machine::power_on(list.first).0;
    let mut line = String::new();
    for &call in &list.calls {
        let mut buf = [0; 255];
        match call {
            Call::Byte { byte: 0x0D, lent } => {
                let len = machine.byte(0x0D, &mut buf[..lent as usize]).len;
                met.printed(&std::mem::take(&mut line), &told(&buf, len));
            }
            Call::Byte { byte, lent } => {
                machine.byte(byte, &mut buf[..lent as usize]);
                line.push(byte as char);
            }
            Call::Ticks { count, word } => (0..count).for_each(|_| {
                let len = machine.tick(word, &mut buf[..120]).len;
                met.printed("", &told(&buf, len));
            }),
            Call::Tick { .. } | Call::Readings => {}
        }
    }
}

/// The front part of a lent buffer, with line feeds for 0D.
fn told(buf: &[u8], len: usize) -> String {
    String::from_utf8_lossy(front(buf, len)).replace('\r', "\n")
}

#[test]
fn the_stored_lists() {
    let mut met = Met::default();
    let lists = stored_lists();
    let identified = lists.iter().filter(|(words, _)| words.starts_with("Identification: "));
    assert_eq!(identified.clone().count(), 6);
    // Each with switch 0, whose replies have 0 for their second character.
    identified.for_each(|(_, list)| play(&mut met, &List { first: 0, ..list.clone() }));
    met.reaches_all(&FORMS);
    let mut met = Met::default();
    play(&mut met, &stored_list("Identification: two that differ"));
    assert!("ABCDEFabcdef".chars().all(|id| met.blocks.contains(&("R".to_string(), Some(id)))));
}

/// The watch list: the small identification postpones the stop, the character behind f does not.
#[test]
fn the_watch_of_the_stored_list() {
    let list = stored_list("Identification: a small one postpones");
    let mut status = Vec::new();
    common::stored_lists::played(&list, |_| {}, |machine| status.push(machine.status()));
    assert_eq!(status, [3, 3, 3, 8, 8, 8, 8]);
}

/// The stored vectors: each identification written and read, the characters next to them 19 and 20; small letters in
/// each of the six digits and in the switch digit 20.
#[test]
fn the_stored_vectors() {
    let answers: Vec<(String, String)> =
        host_text().lines().map(|line| (line.to_string(), vectors::answer(line.as_bytes()))).collect();
    let any = |begins: &str, ends: &str, prints: &str| {
        answers.iter().any(|(line, told)| line.starts_with(begins) && line.ends_with(ends) && told.starts_with(prints))
    };
    for id in ALL.bytes() {
        assert!(any("W 0A", &format!(" {id:02X}"), "00 0A"));
        for (letter, prints) in [("55", "00 U"), ("53", "00 T"), ("53", "00 Q"), ("53", "00 E"), ("73", "00 P")] {
            assert!(any(&format!("B {letter}"), &format!("{id:02X}0D"), prints));
        }
        assert!(any("B 52", &format!("{id:02X}0D"), "00 I"));
    }
    for next in NEXT.bytes() {
        assert!(any("W 0A", &format!(" {next:02X}"), "19") && any("W 09", &format!(" {next:02X}"), "18"));
        assert!(any("B 55", &format!("{next:02X}0D"), "20") && any("B 52", &format!("{next:02X}0D"), "20"));
    }
    for place in 1..8 {
        let mut block = *b"RABCDEFAa\r";
        block[place].make_ascii_lowercase();
        let bytes: String = block.iter().map(|byte| format!("{byte:02X}")).collect();
        assert!(any(&format!("B {bytes}"), "", "20"), "{place}");
    }
}

/// The inputs of desk and preview: each identification asked for and told.
#[test]
fn the_stored_words() {
    let text = desk_text();
    let lines: Vec<&[u8]> = text.split(|&byte| byte == b'\n').collect();
    let printed: Vec<String> = lines.iter().map(|line| answer(line)).collect();
    let mut output = Vec::new();
    reference::preview::run(std::io::BufReader::new(&preview_text()[..]), &mut output).unwrap();
    let shown = String::from_utf8(output).unwrap();
    for id in ALL.chars() {
        assert!(printed.contains(&format!("Q0900000{id}\n")) && lines.contains(&format!("stop as {id}").as_bytes()));
        assert!(printed.contains(&format!("travel 2 minus 5000 (as {id})\n")));
        assert!(shown.contains(&format!("inputs ABCDEF (as {id})\n")), "{id}");
    }
    for next in NEXT.chars() {
        let place = lines.iter().position(|line| *line == format!("stop as {next}").as_bytes()).unwrap();
        assert!(printed[place].starts_with("turned away by 19: "));
    }
}
