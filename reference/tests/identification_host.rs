//! Paper 02, 7/14: the host end takes either case as identification; a block's other digits stay in capitals.

mod common;
use common::{accept, line, on, one_tick, until_rest};
use reference::desk::answer;
use reference::line::read_line;
use reference::{front, read_block, write_line, Block, Command, CommandValue, Digit, Machine, Reading};

/// The 22 identifications.
const ALL: &[u8; 22] = b"0123456789ABCDEFabcdef";

/// A command of each letter and of each form of a line with an identification.
const COMMANDS: [Command; 8] = [
    Command::Distance { axis: 2, minus: true, pulses: 0xABCD },
    Command::Speed(0xF423F),
    Command::Watch(3),
    Command::Start { master: 4 },
    Command::CarryOn,
    Command::LowOn(0x33FF),
    Command::ReadEverything,
    Command::Outputs(0xABCDEF),
];

/// The line of a command value with its 0D, or the number; the rest of the buffer is kept.
fn written(command: Command, silent: bool, identification: u8) -> Result<Vec<u8>, u8> {
    let mut buf = [0x55; 12];
    let value = CommandValue { command, silent, identification: Some(identification) };
    let length = write_line(&value, &mut buf);
    assert!(buf[length.unwrap_or(0)..].iter().all(|&kept| kept == 0x55));
    length.map(|length| buf[..length].to_vec())
}

/// What the writer writes, the controller's end reads as the same command with the same identification; six digits of
/// the line are capitals, whatever the case of the identification is.
#[test]
fn every_line_is_read_back() {
    for command in COMMANDS {
        for id in *ALL {
            for silent in [false, true] {
                let text = written(command, silent, id).unwrap();
                assert_eq!((text.len(), text[8], text[9]), (10, id, 0x0D));
                assert!(text[2..8].iter().all(|character| !character.is_ascii_lowercase()));
                let read = read_line(&text[..9]).unwrap();
                assert_eq!((read.command, read.identification), (command, Digit::read(id)));
            }
        }
    }
}

/// Two command values that differ in case alone have two lines.
#[test]
fn two_that_differ_in_case_alone_are_different() {
    for (capital, small) in (b'A'..=b'F').zip(b'a'..=b'f') {
        assert_ne!(written(Command::Stop, false, capital), written(Command::Stop, false, small));
        let [capital, small] = [capital, small].map(|id| read_block(&[b"U0000000", &[id, 0x0D][..]].concat()).unwrap());
        assert_ne!(capital, small);
        assert_eq!((capital.reading, capital.switch), (small.reading, small.switch));
    }
}

/// 19 for every other character, and for each of a W query; small values are characters too, and none of them a digit.
#[test]
fn characters_without_a_line() {
    for character in 0..=255u8 {
        let expected = if ALL.contains(&character) { Ok(10) } else { Err(19) };
        assert_eq!(written(Command::ReadStatus, false, character).map(|text| text.len()), expected, "{character}");
        assert_eq!(written(Command::ReadInputs, true, character), Err(19));
    }
}

/// A block of each form.
const FORMS: [(&str, Reading); 8] = [
    ("U0000000", Reading::Answer { number: 0 }),
    ("U0000011", Reading::Answer { number: 17 }),
    ("U000001A", Reading::Answer { number: 26 }),
    ("S0281388", Reading::Travel { axis: 2, minus: true, travel: 5_000 }),
    ("S060007F", Reading::Status { status: 0x7F }),
    ("S0BABCDE", Reading::Echo { code: 0xB, five: 0xABCDE }),
    ("s01FFFFF", Reading::Position { axis: 1, position: -1 }),
    ("R0ABCDEF", Reading::Inputs { word: 0xABCDEF }),
];

#[test]
fn every_block_is_read_with_every_identification() {
    for (text, reading) in FORMS {
        for character in 0..=255u8 {
            let identification = Digit::read(character);
            let expected =
                if ALL.contains(&character) { Ok(Block { switch: 0, identification, reading }) } else { Err(20) };
            assert_eq!(read_block(&[text.as_bytes(), &[character, 0x0D]].concat()), expected);
        }
    }
}

/// U of 4 to 7 has none of either case.
#[test]
fn numbers_without_identification() {
    for number in 4..=7 {
        assert!(read_block(format!("U0{number:06X}\r").as_bytes()).is_ok());
        for id in *ALL {
            assert_eq!(read_block(format!("U0{number:06X}{}\r", id as char).as_bytes()), Err(20));
        }
    }
}

/// The six digits and the switch digit stay in capitals, whatever the identification is.
#[test]
fn a_small_letter_in_any_other_place_is_20() {
    let capitals = ["RABCDEFA", "SDD033FF", "SFCFEDCB", "sB0ABCDE", "UA00001A"];
    for text in capitals.map(str::as_bytes) {
        for end in ["\r", "A\r", "a\r"].map(str::as_bytes) {
            for place in (1..8).filter(|&place| text[place].is_ascii_uppercase()) {
                let mut block = [text, end].concat();
                assert!(read_block(&block).is_ok(), "{block:?}");
                block[place].make_ascii_lowercase();
                assert_eq!(read_block(&block), Err(20), "{block:?}");
            }
        }
    }
}

#[test]
fn blocks_of_the_rulings() {
    let block = read_block(b"U0000000a\r").unwrap();
    assert_eq!((block.reading, block.identification.unwrap().character()), (Reading::Answer { number: 0 }, b'a'));
    assert_eq!(read_block(b"s0000abca\r"), Err(20));
    assert_eq!(read_block(b"s0000fff\r"), Err(20));
    let block = read_block(b"SA600000a\r").unwrap();
    assert_eq!((block.switch, block.reading), (10, Reading::Status { status: 0 }));
    assert_eq!(read_block(b"Sa600000\r"), Err(20));
}

/// Every block that a controller gives to an identified line is read back with the very identification: the twelve of
/// q 8, an order's, one turned away, and that of a W line from its tick.
#[test]
fn blocks_of_a_controller_are_read_back() {
    for id in *ALL {
        let mut machine = Machine::power_on(0xD).0;
        accept(&mut machine, &["P0080009", "P0100004", "P0900FFF", "Q080"]);
        until_rest(&mut machine, 0x123456);
        let mut told = String::new();
        for text in ["q0800000", "Q0Babcde", "P0500000", "P0000001"] {
            told += &(line(&mut machine, &[text.as_bytes(), &[id]].concat()).0 + "\n");
        }
        accept(&mut machine, &[&format!("W0abcdef{}", id as char)]);
        (0..2_499).for_each(|_| assert_eq!(one_tick(&mut machine, 0).len, 0));
        let mut buf = [0; 120];
        let answer = machine.tick(0xABCDEF, &mut buf);
        told += &String::from_utf8_lossy(front(&buf, answer.len)).replace('\r', "\n");
        let blocks: Vec<Block> = told.lines().map(|text| read_block(format!("{text}\r").as_bytes()).unwrap()).collect();
        assert_eq!(blocks.len(), 16);
        assert!(blocks.iter().all(|block| block.switch == 0xD && block.identification == Digit::read(id)));
        assert_eq!(blocks[15].reading, Reading::Inputs { word: 0xABCDEF });
    }
}

/// Desk: the very character in the line, and in the words of the reply that the controller gives to it.
#[test]
fn from_words_to_words() {
    for id in ALL.map(char::from) {
        let asked = answer(format!("status as {id}").as_bytes());
        assert_eq!(asked, format!("Q0600000{id}\n"));
        let (reply, _) = line(&mut on(), asked.trim_end().as_bytes());
        assert_eq!(answer(reply.as_bytes()), format!("status 0: at rest (as {id})\n"));
    }
    assert_eq!(answer(b"s0000abca"), "turned away by 20: this is no reply block\n");
    assert_eq!(answer(b"Sa600000a"), "? start 0, start 0 after dwell\n");
}
