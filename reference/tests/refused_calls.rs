//! Numbers 1 to 3: switches, lent buffers and input words.

mod common;
use common::{on, one_tick, send, under_way};
use reference::{Machine, TickAnswer};

#[test]
fn number_1() {
    for switch in 0..=255u8 {
        let (mut machine, number) = Machine::power_on(switch);
        let refused = switch > 15 || switch == 12;
        assert_eq!(number, if refused { 1 } else { 0 });
        let digit = if refused { '0' } else { char::from_digit(switch as u32, 16).unwrap().to_ascii_uppercase() };
        assert_eq!(send(&mut machine, "Q06"), format!("S{digit}600000"));
        if refused {
            assert_eq!(Machine::power_on(switch).0, on());
        }
    }
}

#[test]
fn number_2() {
    let mut machine = on();
    machine.byte(b'Q', &mut [0; 120]);
    machine.byte(b'0', &mut [0; 120]);
    for length in [0, 1, 9, 119] {
        for byte in [b'6', 0x0D, 0xFF] {
            let before = machine.clone();
            let mut buf = vec![0xAA; length];
            let answer = machine.byte(byte, &mut buf);
            assert_eq!((answer.len, answer.number), (0, 2));
            assert_eq!(machine, before);
            assert!(buf.iter().all(|&kept| kept == 0xAA));
        }
    }
    assert_eq!(send(&mut machine, "6"), "S0600000");
}

/// A tick that is turned away with this number: pulses and words 0, no entry, no block, nothing altered.
fn refused_tick(machine: &mut Machine, word: u32, lent: usize, number: u8) {
    let before = machine.clone();
    let mut buf = vec![0xAA; lent];
    let answer = machine.tick(word, &mut buf);
    assert_eq!(answer, TickAnswer { pulses: [0; 5], words: [0, 0], number, entry: None, len: 0 });
    assert_eq!(*machine, before);
    assert!(buf.iter().all(|&kept| kept == 0xAA));
}

#[test]
fn number_2_of_a_tick() {
    let mut machine = under_way(0);
    send(&mut machine, "W0FFFFFF");
    for lent in [0, 1, 9, 119] {
        for word in [0, 5, 16_777_215, 16_777_216, u32::MAX] {
            refused_tick(&mut machine, word, lent, 2);
        }
    }
    assert_eq!(machine.tick(5, &mut [0; 120]).number, 0);
    assert!(send(&mut machine, "q08").ends_with("R0000005"));
}

#[test]
fn number_3() {
    let mut machine = under_way(0);
    send(&mut machine, "W0FFFFFF");
    for word in [16_777_216, 16_777_217, u32::MAX] {
        for lent in [120, 121, 4_096] {
            refused_tick(&mut machine, word, lent, 3);
        }
    }
    assert_eq!(one_tick(&mut machine, 16_777_215).number, 0);
    assert!(send(&mut machine, "q08").ends_with("R0FFFFFF"));
}
