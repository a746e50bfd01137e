//! Two programs that are to print the same on every text: a proved one and the reference's.

use crate::program::END_OF_OUTPUT;
use crate::shrink;
use std::fs;
use std::path::Path;

/// One text of a seed.
#[derive(Clone, Copy, Debug)]
pub struct Item {
    pub seed: u64,
    pub index: u64,
}

/// What the two programs print on a text, what such a text is called, and the folder of working files.
pub struct Pair<'a> {
    pub what: &'static str,
    pub folder: &'a Path,
    pub proved: &'a dyn Fn(&[u8]) -> Vec<u8>,
    pub reference: &'a dyn Fn(&[u8]) -> Vec<u8>,
}

/// The first line that differs in two outputs, with its number.
fn first_difference(proved: &[u8], reference: &[u8]) -> String {
    let (proved, reference) = (String::from_utf8_lossy(proved), String::from_utf8_lossy(reference));
    let (mut ours, mut theirs) = (proved.split('\n'), reference.split('\n'));
    for number in 1.. {
        let (our, their) = (ours.next(), theirs.next());
        if our != their || our.is_none() {
            let shown = |line: Option<&str>| line.unwrap_or(END_OF_OUTPUT).escape_debug().to_string();
            return format!("printed line {number}: proved {}, reference {}", shown(our), shown(their));
        }
    }
    unreachable!("one of the outputs ends")
}

impl Pair<'_> {
    fn differs(&self, text: &[u8]) -> bool {
        (self.proved)(text) != (self.reference)(text)
    }

    /// Drops lines while the difference stays.
    fn shrunk(&self, text: &[u8]) -> Vec<u8> {
        let lines: Vec<&[u8]> = text.split_inclusive(|&byte| byte == b'\n').collect();
        shrink::dropped(lines, |part| self.differs(&part.concat())).concat()
    }

    fn kept(&self, name: String, text: &[u8]) -> String {
        let file = self.folder.join(name);
        fs::write(&file, text).expect("the text is written");
        file.display().to_string()
    }

    /// The seed and the file of the whole text.
    fn place(&self, item: Item, text: &[u8]) -> String {
        let (what, Item { seed, index }) = (self.what, item);
        let whole = self.kept(format!("{what}-{seed}-{index}.in"), text);
        format!("DIFFERENCE: seed {seed}, {what} {index}, in {whole}")
    }

    /// A difference in words: the seed, the files of the text whole and shrunk, and the first line that differs.
    fn report(&self, item: Item, text: &[u8]) -> String {
        let (what, Item { seed, index }) = (self.what, item);
        let small = self.shrunk(text);
        let file = self.kept(format!("{what}-{seed}-{index}-small.in"), &small);
        let line = first_difference(&(self.proved)(&small), &(self.reference)(&small));
        let place = self.place(item, text);
        format!("{place}\nshrunk, in {file}:\n{}\n{line}", small.escape_ascii()).replace("\\n", "\n")
    }

    /// Whether both print the same on a text, and nothing is wrong with what it met; else that in words.
    pub fn compare(&self, item: Item, text: &[u8], wrong: Option<&str>) -> Result<(), String> {
        if self.differs(text) {
            return Err(self.report(item, text));
        }
        wrong.map_or(Ok(()), |words| Err(format!("{}\nboth print the same: {words}", self.place(item, text))))
    }
}

#[cfg(test)]
mod tests {
    use super::*;

    #[test]
    fn a_difference_is_shrunk_to_its_line() {
        let echo = |text: &[u8]| text.to_vec();
        let capitals = |text: &[u8]| text.iter().map(|&byte| if byte == b'd' { b'D' } else { byte }).collect();
        let pair = Pair { what: "text", folder: Path::new(""), proved: &capitals, reference: &echo };
        assert_eq!(pair.compare(Item { seed: 0, index: 0 }, b"a\nb\n", None), Ok(()));
        let small = pair.shrunk(b"a\nb\nc d\ne");
        assert_eq!(small, b"c d\n");
        assert_eq!(first_difference(&capitals(&small), &small), "printed line 1: proved c D, reference c d");
    }
}
