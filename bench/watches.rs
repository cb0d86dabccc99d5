//! What is hung into the plain solver: a count of its rounds and of the moves that they look at.

use crate::plain::Watch;

#[derive(Default, Clone, Copy)]
pub struct Count {
    pub rounds: usize,
    /// Moves that passes handled.
    pub handled: usize,
    /// Moves that the searches for a border block looked at.
    pub searched: usize,
}

impl Watch for Count {
    fn round(&mut self) {
        self.rounds += 1;
    }

    fn handled(&mut self) {
        self.handled += 1;
    }

    fn searched(&mut self) {
        self.searched += 1;
    }
}
