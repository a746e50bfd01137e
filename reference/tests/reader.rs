//! Host end: reader.

mod common;
use common::{accept, line, until_rest};
use reference::{read_block, Block, Digit, Machine, Reading};

fn reading(bytes: &[u8]) -> Result<Reading, u8> {
    read_block(bytes).map(|block| block.reading)
}

/// Texts that are no blocks.
fn no_blocks(texts: &[&str]) {
    for text in texts {
        assert_eq!(reading(text.as_bytes()), Err(20), "{text}");
    }
}

#[test]
fn answers() {
    for number in 0..=255u32 {
        for identified in [false, true] {
            let tail = if identified { "A\r" } else { "\r" };
            let text = format!("U0{number:06X}{tail}");
            let taken = matches!(number, 0 | 8..=17 | 26) || ((4..=7).contains(&number) && !identified);
            let expected = if taken { Ok(Reading::Answer { number: number as u8 }) } else { Err(20) };
            assert_eq!(reading(text.as_bytes()), expected, "{text}");
        }
    }
    assert_eq!(reading(b"U0100000\r"), Err(20));
}

#[test]
fn switch_digits() {
    for character in 0..=255u8 {
        let block = [b'R', character, b'0', b'0', b'0', b'0', b'0', b'1', 0x0D];
        let expected = match character {
            b'0'..=b'9' => Ok(character - b'0'),
            b'A' | b'B' | b'D' | b'E' | b'F' => Ok(character - b'A' + 10),
            _ => Err(20),
        };
        assert_eq!(read_block(&block).map(|block| block.switch), expected);
    }
}

#[test]
fn travels_and_status() {
    assert_eq!(reading(b"S0080005\r"), Ok(Reading::Travel { axis: 0, minus: true, travel: 5 }));
    assert_eq!(reading(b"S047FFFFB\r"), Ok(Reading::Travel { axis: 4, minus: false, travel: 524_287 }));
    assert_eq!(reading(b"S060007F\r"), Ok(Reading::Status { status: 0x7F }));
    no_blocks(&["S0600080\r"]);
}

#[test]
fn echoes() {
    assert_eq!(reading(b"S0840000\r"), Ok(Reading::Echo { code: 8, five: 0x40000 }));
    assert_eq!(reading(b"S08CFFFF\r"), Ok(Reading::Echo { code: 8, five: 0xCFFFF }));
    assert_eq!(reading(b"S09FFFFF\r"), Ok(Reading::Echo { code: 9, five: 0xFFFFF }));
    assert_eq!(reading(b"S0A00001\r"), Ok(Reading::Echo { code: 0xA, five: 1 }));
    assert_eq!(reading(b"S0BABCDE\r"), Ok(Reading::Echo { code: 0xB, five: 0xABCDE }));
    assert_eq!(reading(b"S0C00000\r"), Ok(Reading::Echo { code: 0xC, five: 0 }));
    assert_eq!(reading(b"SACFFFFFB\r"), Ok(Reading::Echo { code: 0xC, five: 0xFFFFF }));
    assert_eq!(reading(b"S0D033FF\r"), Ok(Reading::Echo { code: 0xD, five: 0x33FF }));
    no_blocks(&["S0850000\r", "S08D0000\r", "S0D00400\r", "S0E04000\r"]);
    no_blocks(&["S0500000\r", "S0700000\r", "S0c00000\r", "S0F00000\r"]);
}

#[test]
fn positions() {
    assert_eq!(reading(b"s00FFFFF\r"), Ok(Reading::Position { axis: 0, position: -1 }));
    assert_eq!(reading(b"s0480000\r"), Ok(Reading::Position { axis: 4, position: -524_288 }));
    assert_eq!(reading(b"s027FFFF\r"), Ok(Reading::Position { axis: 2, position: 524_287 }));
    no_blocks(&["s0500000\r", "s0800000\r"]);
}

#[test]
fn inputs_and_other_forms() {
    assert_eq!(reading(b"R0ABCDEF\r"), Ok(Reading::Inputs { word: 0xABCDEF }));
    no_blocks(&["R0ABCDEf\r", "R0ABCDEFg\r", "R0ABCDEF", "R0ABCDEF\n", "R0ABCDEF1", "R0ABCDEF1\rR", "R0ABCDE\r"]);
    no_blocks(&["r0ABCDEF\r", "P0ABCDEF\r"]);
}

#[test]
fn everything_is_read_back() {
    let mut machine = Machine::power_on(7).0;
    accept(&mut machine, &["P0080009", "P0100004", "P0900FFF", "Q080"]);
    until_rest(&mut machine, 0x123456);
    let (reply, _) = line(&mut machine, b"q080000003");
    assert_eq!(reply, "U7000004");
    let (reply, _) = line(&mut machine, b"q0800000A");
    let blocks: Vec<Block> = reply.lines().map(|text| read_block(format!("{text}\r").as_bytes()).unwrap()).collect();
    assert_eq!(blocks.len(), 12);
    assert!(blocks.iter().all(|block| block.switch == 7 && block.identification == Digit::read(b'A')));
    for axis in 0..5 {
        let k = axis as usize;
        let travel = Reading::Travel { axis, minus: axis == 0, travel: machine.travels()[k] };
        assert_eq!(blocks[k].reading, travel);
        assert_eq!(blocks[6 + k].reading, Reading::Position { axis, position: machine.positions()[k] });
    }
    assert_eq!(blocks[5].reading, Reading::Status { status: machine.status() });
    assert_eq!(blocks[11].reading, Reading::Inputs { word: 0x123456 });
}
