//! Numbers 18 to 21: line buffers, command values, blocks and figures of the host end.

use reference::figures::{command_of, Setting};
use reference::{read_block, write_line, Command, CommandValue};

fn value(command: Command) -> CommandValue {
    CommandValue { command, silent: false, identification: None }
}

#[test]
fn number_18_before_19() {
    for length in 0..10 {
        let mut buf = vec![0x55; length];
        assert_eq!(write_line(&value(Command::ReadStatus), &mut buf), Err(18));
        assert_eq!(write_line(&value(Command::Speed(0)), &mut buf), Err(18));
        assert_eq!(write_line(&value(Command::ReadInputs), &mut buf), Err(18));
        assert!(buf.iter().all(|&kept| kept == 0x55));
    }
}

#[test]
fn number_19() {
    let without_line = [
        Command::Distance { axis: 5, minus: false, pulses: 0 },
        Command::Distance { axis: 0, minus: false, pulses: 524_288 },
        Command::Speed(0),
        Command::Speed(1_000_001),
        Command::Slope(0),
        Command::Slope(4_096),
        Command::Dwell(16_384),
        Command::Watch(4),
        Command::Polarity(4_096),
        Command::ReadTravel { axis: 5 },
        Command::ReadPosition { axis: 255 },
        Command::Start { master: 5 },
        Command::StartAfterDwell { master: 5 },
        Command::LowOn(0x400),
        Command::HighOn(0x4000),
        Command::HighOn(0x100000),
        Command::Outputs(0x1000000),
    ];
    let mut buf = [0x55; 12];
    for command in without_line {
        assert_eq!(write_line(&value(command), &mut buf), Err(19), "{command:?}");
    }
    for (command, identification) in
        [(Command::ReadStatus, b'g'), (Command::ReadStatus, 10), (Command::ReadInputs, b'0')]
    {
        let identified = CommandValue { identification: Some(identification), ..value(command) };
        assert_eq!(write_line(&identified, &mut buf), Err(19));
    }
    assert_eq!(buf, [0x55; 12]);
}

#[test]
fn number_20() {
    assert_eq!(read_block(b""), Err(20));
    assert_eq!(read_block(b"UC000000\r"), Err(20));
}

#[test]
fn number_21() {
    assert_eq!(command_of(Setting::Speed(0.1)), Err(21));
    assert_eq!(command_of(Setting::Slope(1.0)), Err(21));
}
