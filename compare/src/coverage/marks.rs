//! Which of the 256 values of a byte came.

/// A mark for each value.
#[derive(Clone, Debug)]
pub struct Marks([bool; 256]);

impl Default for Marks {
    fn default() -> Marks {
        Marks([false; 256])
    }
}

impl Marks {
    pub fn mark(&mut self, value: u8) {
        self.0[value as usize] = true;
    }

    pub fn has(&self, value: u8) -> bool {
        self.0[value as usize]
    }

    /// The marks of another run join these.
    pub fn join(&mut self, more: &Marks) {
        for (mark, other) in self.0.iter_mut().zip(more.0) {
            *mark |= other;
        }
    }

    /// How many values came.
    pub fn count(&self) -> usize {
        self.0.iter().filter(|&&mark| mark).count()
    }
}
