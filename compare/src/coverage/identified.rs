//! Counters of identifications that came back (paper 02, 7/14), and of lines that have none in its place.

use super::Marks;
use crate::counted::{add_each, grouped, not_met};
use crate::identification::{Identifications, NEXT_TO_THEM};
use reference::line::{read_line, LINE_END};
use std::fmt;

/// The characters of a line with an identification, and the bytes of a block with one.
const NINE: usize = 9;
const WITH_ONE: usize = 10;

/// The blocks of everything.
const EVERYTHING: usize = 12;

/// How a line of nine characters follows the same with its identification in the other case.
#[derive(Clone, Copy, Debug)]
pub enum OtherCase {
    /// As the very next line.
    Next,
    /// As an accepted W line that asks, before the block of the first and so in its place.
    BeforeBlock,
    /// As one behind the block of the first.
    BehindBlock,
}

#[derive(Clone, Debug, Default)]
pub struct Identified {
    /// Of replies to lines, and of those among them that tell a number that turned away.
    replies: Identifications,
    turned_away: Identifications,
    /// Replies of twelve blocks with a small letter.
    small_everything: u64,
    /// Of blocks in answers of ticks.
    from_ticks: Identifications,
    /// Lines turned away by 7 for their ninth character alone, and these characters.
    ninth: u64,
    ninth_characters: Marks,
    other_case: [u64; 3],
}

/// How many blocks a reply has, and the identification where there is one.
fn read(reply: &[u8]) -> (usize, Option<u8>) {
    let blocks = reply.iter().filter(|&&byte| byte == LINE_END).count();
    let identified = blocks > 0 && reply.len() == WITH_ONE * blocks;
    (blocks, identified.then(|| reply[reply.len() - 2]))
}

impl Identified {
    /// The reply to a line, and its number.
    pub fn reply(&mut self, reply: &[u8], number: u8) {
        let (blocks, Some(identification)) = read(reply) else { return };
        self.replies.count(identification);
        if number != 0 {
            self.turned_away.count(identification);
        }
        self.small_everything += (blocks == EVERYTHING && identification.is_ascii_lowercase()) as u64;
    }

    /// The block in the answer of a tick.
    pub fn tick(&mut self, block: &[u8]) {
        if let (_, Some(identification)) = read(block) {
            self.from_ticks.count(identification);
        }
    }

    /// A line that was turned away by 7.
    pub fn no_digit(&mut self, line: &[u8]) {
        if line.len() == NINE && read_line(&line[..NINE - 1]) != Err(7) {
            self.ninth += 1;
            self.ninth_characters.mark(line[NINE - 1]);
        }
    }

    pub fn other_case(&mut self, how: OtherCase) {
        self.other_case[how as usize] += 1;
    }

    pub fn add(&mut self, more: &Identified) {
        self.replies.add(&more.replies);
        self.turned_away.add(&more.turned_away);
        self.small_everything += more.small_everything;
        self.from_ticks.add(&more.from_ticks);
        self.ninth += more.ninth;
        self.ninth_characters.join(&more.ninth_characters);
        add_each(&mut self.other_case, &more.other_case);
    }

    /// A line that says what was not met; nothing where all was.
    pub fn not_met(&self) -> String {
        let [next, before, behind] = self.other_case;
        let rest = [
            ("turned away with a small letter", self.turned_away.small()),
            ("everything with a small letter", self.small_everything),
            ("pairs", next),
            ("pairs of W lines before a block", before),
            ("pairs of W lines behind one", behind),
        ];
        let characters = self.replies.named("in replies").chain(self.from_ticks.named("from ticks"));
        let next_to =
            NEXT_TO_THEM.map(|one| (format!("{} as ninth", one as char), self.ninth_characters.has(one) as u64));
        not_met(characters.chain(next_to).chain(rest.map(|(name, count)| (name.to_string(), count))))
    }
}

impl fmt::Display for Identified {
    fn fmt(&self, f: &mut fmt::Formatter) -> fmt::Result {
        let g = grouped;
        write!(f, "  identifications in replies: {}", self.replies)?;
        writeln!(f, "; of twelve blocks small letters {}", g(self.small_everything))?;
        writeln!(f, "  of these in replies that turn away: {}", self.turned_away)?;
        writeln!(f, "  identifications in blocks from ticks: {}", self.from_ticks)?;
        let characters = self.ninth_characters.count();
        write!(f, "  lines turned away by 7 for their ninth character alone {}", g(self.ninth))?;
        writeln!(f, ", by {characters} characters")?;
        let [next, before, behind] = self.other_case.map(g);
        write!(f, "  lines behind the same in the other case {next}")?;
        writeln!(f, "; W lines before the block of such a one {before}, behind it {behind}")?;
        write!(f, "{}", self.not_met())
    }
}
