//! Journal: spellings worked out by hand, and every number that writer and reader give.

use reference::journal::{append, read};
use reference::Entry;

/// Entries and their bytes, worked out by hand.
///
/// 207 is 79 and 1 × 128. 300 is 44 and 2 × 128. 2 to the 45 less 1 is six groups of seven set bits and three more.
/// 524,287 is stored as 1,048,574, which is 126, 127 and 63; -524,287 as 1,048,573, which is 125, 127 and 63.
const WORKED_OUT: [(u64, u8, [i32; 5], &[u8]); 8] = [
    (207, 0, [1, -1, 0, 0, 0], &[0xCF, 0x01, 0x00, 0x02, 0x01, 0x00, 0x00, 0x00]),
    (1, 1, [0; 5], &[0x01, 0x01, 0x00, 0x00, 0x00, 0x00, 0x00]),
    (127, 0, [63, -64, 2, -2, -3], &[0x7F, 0x00, 0x7E, 0x7F, 0x04, 0x03, 0x05]),
    (128, 0, [64, -65, 0, 0, 0], &[0x80, 0x01, 0x00, 0x80, 0x01, 0x81, 0x01, 0x00, 0x00, 0x00]),
    (300, 1, [0, 0, 0, 0, 1], &[0xAC, 0x02, 0x01, 0x00, 0x00, 0x00, 0x00, 0x02]),
    (16_384, 1, [0, 8_192, 0, -8_193, 0], &[0x80, 0x80, 0x01, 1, 0, 0x80, 0x80, 0x01, 0, 0x81, 0x80, 0x01, 0]),
    ((1 << 45) - 1, 0, [0; 5], &[0xFF, 0xFF, 0xFF, 0xFF, 0xFF, 0xFF, 0x07, 0, 0, 0, 0, 0, 0]),
    (2, 1, [524_287, -524_287, 0, 0, 0], &[2, 1, 0xFE, 0xFF, 0x3F, 0xFD, 0xFF, 0x3F, 0, 0, 0]),
];

/// The shortest entry: stopped in its first tick.
const SHORTEST: Entry = Entry { ticks: 1, cause: 1, travels: [0; 5] };

/// Entries with one value out of range.
fn out_of_range() -> Vec<Entry> {
    let mut entries: Vec<Entry> = [0, 1 << 45, u64::MAX].map(|ticks| Entry { ticks, ..SHORTEST }).into();
    entries.extend([2, 3, 128, 255].map(|cause| Entry { cause, ..SHORTEST }));
    for axis in 0..5 {
        for travel in [524_288, -524_288, i32::MAX, i32::MIN] {
            let mut travels = [0; 5];
            travels[axis] = travel;
            entries.push(Entry { travels, ..SHORTEST });
        }
    }
    entries
}

#[test]
fn written_and_read_as_worked_out() {
    for (ticks, cause, travels, bytes) in WORKED_OUT {
        let entry = Entry { ticks, cause, travels };
        let mut buf = [0x5A; 32];
        assert_eq!(append(&mut buf, 3, &entry), (3 + bytes.len(), 0));
        assert_eq!(&buf[3..3 + bytes.len()], bytes);
        assert!(buf[..3].iter().chain(&buf[3 + bytes.len()..]).all(|&kept| kept == 0x5A));
        assert_eq!(read(bytes, 0), Ok(Some((entry, bytes.len()))));
        assert_eq!(read(&buf, 3), Ok(Some((entry, 3 + bytes.len()))));
    }
}

/// The writer gives this number for the entry at the place and alters nothing.
fn refused(length: usize, at: usize, entry: &Entry, number: u8) {
    let mut buf = vec![0x5A; length];
    assert_eq!(append(&mut buf, at, entry), (at, number), "{length} {at} {entry:?}");
    assert!(buf.iter().all(|&kept| kept == 0x5A));
}

#[test]
fn number_22() {
    for (ticks, cause, travels, bytes) in WORKED_OUT {
        let entry = Entry { ticks, cause, travels };
        for length in 0..40usize {
            for at in (length + 1).saturating_sub(bytes.len())..length + 3 {
                refused(length, at, &entry, 22);
            }
        }
        for at in [usize::MAX, usize::MAX - 1, usize::MAX - 7, 1 << 40] {
            refused(40, at, &entry, 22);
        }
    }
}

#[test]
fn number_24_of_the_writer_comes_before_22() {
    for entry in out_of_range() {
        for (length, at) in [(40, 0), (40, 33), (40, 34), (40, 40), (40, 41), (40, usize::MAX), (0, 0), (0, 1)] {
            refused(length, at, &entry, 24);
        }
    }
}

#[test]
fn the_journals_end() {
    for at in [0, 1, usize::MAX] {
        assert_eq!(read(&[], at), Ok(None));
    }
    for at in [7, 8, 255, usize::MAX] {
        assert_eq!(read(&[1, 1, 0, 0, 0, 0, 0], at), Ok(None));
    }
}

#[test]
fn number_23() {
    for (_, _, _, bytes) in WORKED_OUT {
        for end in 1..bytes.len() {
            assert_eq!(read(&bytes[..end], 0), Err(23), "{:02X?}", &bytes[..end]);
        }
    }
    for count in 1..=6 {
        assert_eq!(read(&vec![0x80; count], 0), Err(23));
        assert_eq!(read(&[&[1, 1][..], &vec![0xFF; count]].concat(), 0), Err(23));
    }
}

#[test]
fn number_24_of_the_reader() {
    let wrong: [&[u8]; 12] = [
        // A longer spelling of 1, of 0, and of 2 as the last travel.
        &[0x81, 0x00, 1, 0, 0, 0, 0, 0],
        &[1, 0x80, 0x00, 0, 0, 0, 0, 0],
        &[1, 1, 0, 0, 0, 0, 0x82, 0x80, 0x00],
        // Ticks 0; ticks 2 to the 45; cause 2; travels -524,288 and 524,288.
        &[0, 1, 0, 0, 0, 0, 0],
        &[0x80, 0x80, 0x80, 0x80, 0x80, 0x80, 0x08, 1, 0, 0, 0, 0, 0],
        &[1, 2, 0, 0, 0, 0, 0],
        &[1, 1, 0xFF, 0xFF, 0x3F, 0, 0, 0, 0],
        &[1, 1, 0, 0, 0, 0, 0x80, 0x80, 0x40],
        // A seventh group with its top bit set, with nothing after it, and with an eighth.
        &[0x81, 0x80, 0x80, 0x80, 0x80, 0x80, 0x80],
        &[0x81, 0x80, 0x80, 0x80, 0x80, 0x80, 0x80, 0x00, 1, 0, 0, 0, 0, 0],
        &[1, 1, 0x80, 0x80, 0x80, 0x80, 0x80, 0x80, 0x80],
        &[1, 1, 0, 0, 0, 0, 0xFF, 0xFF, 0xFF, 0xFF, 0xFF, 0xFF, 0xFF],
    ];
    for bytes in wrong {
        assert_eq!(read(bytes, 0), Err(24), "{bytes:02X?}");
    }
}

#[test]
fn numbers_are_judged_one_by_one() {
    // A wrong number comes before the number after it that is cut short or missing.
    for bytes in [&[0][..], &[0x81, 0x00], &[0, 0x80], &[1, 2], &[1, 2, 0x80], &[1, 1, 0, 0x80, 0x00]] {
        assert_eq!(read(bytes, 0), Err(24), "{bytes:02X?}");
    }
    // A number cut short is not judged, though no travel has four groups.
    assert_eq!(read(&[1, 1, 0xFF, 0xFF, 0xFF, 0xFF], 0), Err(23));
    // Bytes before the place and after the entry are not looked at.
    assert_eq!(read(&[0xFF, 0, 1, 1, 0, 0, 0, 0, 0, 0, 0xFF], 2), Ok(Some((SHORTEST, 9))));
}
