//! Damage to one character.

/// What happens to the character.
#[derive(Clone, Copy)]
pub enum Touch {
    Drop,
    PutIn,
    Replace,
}

impl Touch {
    /// Touches a line at a place; `stray` is asked only where a character comes in, so that no random number is lost.
    pub fn apply(self, line: &mut Vec<u8>, at: usize, stray: impl FnOnce() -> u8) {
        match self {
            Touch::Drop => {
                line.remove(at);
            }
            Touch::PutIn => line.insert(at, stray()),
            Touch::Replace => line[at] = stray(),
        }
    }
}
