//! The journal of a call list: library and reference append its entries as they come, and both read it back.

use crate::played::NO_ENTRY;
use crate::temixohuel::{self, AppendAnswer, ReadAnswer};
use reference::journal::{self, Entry, NO_SPACE};

/// So many bytes join the buffers where an entry has no space; no entry takes more.
const MORE: usize = 37;

/// The entries that the library answered, the buffer of each side, and the length of the journal in them.
#[derive(Default)]
pub struct Journal {
    entries: Vec<Entry>,
    ours: Vec<u8>,
    theirs: Vec<u8>,
    length: usize,
}

/// The reference's answer to a read, as the library has it.
fn read_by_reference(bytes: &[u8], at: usize) -> ReadAnswer {
    match journal::read(bytes, at) {
        Ok(Some((entry, next))) => ReadAnswer { entry: entry.into(), next, found: true, number: 0 },
        Ok(None) => ReadAnswer { entry: NO_ENTRY, next: at, found: false, number: 0 },
        Err(number) => ReadAnswer { entry: NO_ENTRY, next: at, found: false, number },
    }
}

impl Journal {
    /// An entry that the library answered, appended by both, or the difference in words. The buffers are too short for
    /// some entries, which are appended again once there is space.
    pub fn append(&mut self, entry: Entry) -> Result<(), String> {
        self.entries.push(entry);
        if self.try_append(entry)? == NO_SPACE {
            let longer = self.ours.len() + MORE;
            self.ours.resize(longer, 0x5A);
            self.theirs.resize(longer, 0x5A);
            self.try_append(entry)?;
        }
        Ok(())
    }

    /// One append on both sides: the number that both answer, with equal buffers.
    fn try_append(&mut self, entry: Entry) -> Result<u8, String> {
        let our = temixohuel::append(&mut self.ours, self.length, entry.into());
        let (next, number) = journal::append(&mut self.theirs, self.length, &entry);
        let their = AppendAnswer { next, number };
        if our != their || self.ours != self.theirs {
            let place = format!("append {entry:?} at {} of {} bytes", self.length, self.ours.len());
            let buffers = format!("buffers {:02X?}\nand {:02X?}", self.ours, self.theirs);
            return Err(format!("{place}\nlibrary:   {our:?}\nreference: {their:?}\n{buffers}\n"));
        }
        self.length = next;
        Ok(number)
    }

    /// Both read alike from every place of the journal and from places past its end; from its front on it has the
    /// entries that were answered, and then its end.
    pub fn read_back(&self) -> Result<(), String> {
        let (ours, theirs) = (&self.ours[..self.length], &self.theirs[..self.length]);
        for at in (0..=self.length + 1).chain([usize::MAX]) {
            let (our, their) = (temixohuel::read(ours, at), read_by_reference(theirs, at));
            if our != their {
                return Err(format!("read at {at} of {ours:02X?}\nlibrary:   {our:?}\nreference: {their:?}\n"));
            }
        }
        self.yields(ours)
    }

    /// The entries from the front on are those that were answered.
    fn yields(&self, bytes: &[u8]) -> Result<(), String> {
        let (mut entries, mut answer) = (Vec::<Entry>::new(), temixohuel::read(bytes, 0));
        while answer.found {
            entries.push(answer.entry.into());
            answer = temixohuel::read(bytes, answer.next);
        }
        if entries == self.entries && (answer.next, answer.number) == (bytes.len(), 0) {
            return Ok(());
        }
        Err(format!("answered {:?}\nread back {entries:?}, then {answer:?}\n", self.entries))
    }
}

#[cfg(test)]
mod tests {
    use super::*;

    #[test]
    fn entries_are_read_back() {
        let mut journal = Journal::default();
        for ticks in [1, 127, 128, (1 << 45) - 1] {
            let entry = Entry { ticks, cause: (ticks % 2) as u8, travels: [0, 63, -64, 524_287, -524_287] };
            assert_eq!(journal.append(entry), Ok(()));
        }
        assert_eq!(journal.read_back(), Ok(()));
        assert_eq!((journal.entries.len(), journal.length), (4, 51));
    }

    #[test]
    fn an_entry_that_is_not_written_is_missed() {
        let mut journal = Journal::default();
        assert_eq!(journal.append(Entry { ticks: 0, cause: 0, travels: [0; 5] }), Ok(()));
        assert!(journal.read_back().is_err());
    }
}
