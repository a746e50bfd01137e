//! Journal: writing and then reading yields the entries, and each entry has one spelling.

mod common;
use common::sequence::Sequence;
use reference::journal::{append, read};
use reference::Entry;
use std::collections::HashMap;

/// A number of at most so many bits, each length as likely.
fn drawn_bits(sequence: &mut Sequence, most: u64) -> u64 {
    let bits = sequence.below(most + 1);
    sequence.draw() & ((1 << bits) - 1)
}

/// An entry with every value in range.
fn drawn_entry(sequence: &mut Sequence) -> Entry {
    let ticks = drawn_bits(sequence, 45).max(1);
    let cause = sequence.below(2) as u8;
    let travels = std::array::from_fn(|_| {
        let travel = drawn_bits(sequence, 19) as i32;
        if sequence.below(2) == 0 {
            travel
        } else {
            -travel
        }
    });
    Entry { ticks, cause, travels }
}

/// The bytes of an entry as the writer has them.
fn written(entry: &Entry) -> Vec<u8> {
    let mut buf = [0; 23];
    let (length, number) = append(&mut buf, 0, entry);
    assert_eq!(number, 0);
    buf[..length].to_vec()
}

/// The entries of a journal, read from the front to its end.
fn read_all(journal: &[u8]) -> Vec<Entry> {
    let (mut entries, mut at) = (Vec::new(), 0);
    while let Some((entry, next)) = read(journal, at).unwrap() {
        assert!(next > at && next <= journal.len());
        entries.push(entry);
        at = next;
    }
    assert_eq!(at, journal.len());
    entries
}

#[test]
fn entries_written_one_after_the_other_are_read_back() {
    let mut sequence = Sequence(0x1234_5678_9ABC_DEF1);
    for _ in 0..3_000 {
        let entries: Vec<Entry> = (0..sequence.below(12)).map(|_| drawn_entry(&mut sequence)).collect();
        let mut buf = vec![0xEE; 12 * 23];
        let mut at = 0;
        for entry in &entries {
            let before = buf[..at].to_vec();
            let (next, number) = append(&mut buf, at, entry);
            assert_eq!((number, &buf[..at]), (0, &before[..]));
            at = next;
        }
        assert!(buf[at..].iter().all(|&kept| kept == 0xEE));
        assert_eq!(read_all(&buf[..at]), entries);
    }
}

#[test]
fn drawn_entries_cut_short_are_23() {
    let mut sequence = Sequence(0x0F1E_2D3C_4B5A_6978);
    for _ in 0..3_000 {
        let bytes = written(&drawn_entry(&mut sequence));
        assert!((1..bytes.len()).all(|end| read(&bytes[..end], 0) == Err(23)));
    }
}

/// The bytes that read as an entry are those that the writer has for it.
fn one_spelling(bytes: &[u8]) -> bool {
    match read(bytes, 0) {
        Ok(Some((entry, next))) => {
            assert_eq!(written(&entry), &bytes[..next]);
            true
        }
        Ok(None) => panic!("{bytes:02X?}"),
        Err(number) => {
            assert!(number == 23 || number == 24);
            false
        }
    }
}

/// Every string of so many bytes out of these.
fn strings(alphabet: &[u8], length: u32) -> impl Iterator<Item = Vec<u8>> + '_ {
    let size = alphabet.len();
    (0..size.pow(length))
        .map(move |number| (0..length).map(|place| alphabet[number / size.pow(place) % size]).collect())
}

#[test]
fn bytes_that_read_as_an_entry_are_its_one_spelling() {
    let mut read = 0;
    for length in 1..=9 {
        read += strings(&[0x00, 0x01, 0x02, 0x80, 0x81], length).filter(|bytes| one_spelling(bytes)).count();
    }
    assert!(read > 10_000);
}

#[test]
fn every_two_bytes_at_every_place_of_an_entry() {
    for place in 0..8 {
        for pair in 0..=u16::MAX {
            let mut bytes = [0x01, 0x01, 0, 0, 0, 0, 0, 0, 0];
            bytes[place..place + 2].copy_from_slice(&pair.to_le_bytes());
            one_spelling(&bytes);
        }
    }
}

/// The value of groups: seven bits each, low group first.
fn value_of(groups: &[u8]) -> u64 {
    groups.iter().rev().fold(0, |value, group| value * 128 + (group % 128) as u64)
}

/// Every number of one to three groups: top bit set on all but the last.
fn every_number() -> impl Iterator<Item = Vec<u8>> {
    (1..=3u32).flat_map(|count| {
        (0..128u32.pow(count)).map(move |number| {
            let group = |place| (number / 128u32.pow(place) % 128) as u8 | if place + 1 < count { 0x80 } else { 0 };
            (0..count).map(group).collect()
        })
    })
}

/// Of all groups with one value the shortest alone is read; longer ones, and ticks 0, are 24.
#[test]
fn the_shortest_form_alone_is_read() {
    let mut shortest: HashMap<u64, usize> = HashMap::new();
    for groups in every_number() {
        let value = value_of(&groups);
        let least = *shortest.entry(value).or_insert(groups.len());
        let whole = [&groups[..], &[0; 6]].concat();
        let wanted = if groups.len() == least && value > 0 {
            Ok(Some((Entry { ticks: value, cause: 0, travels: [0; 5] }, groups.len() + 6)))
        } else {
            Err(24)
        };
        assert_eq!(read(&whole, 0), wanted, "{groups:02X?}");
    }
    assert_eq!(shortest.len(), 1 << 21);
}
