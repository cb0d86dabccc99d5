//! Follows a plan against every play of the other side.

use crate::answer::NONE;
use crate::game::Game;

/// A row of moves that one side follows at its own states.
pub struct Plan<'a> {
    pub game: &'a Game,
    pub side: u8,
    pub moves: &'a [u16],
}

impl Plan<'_> {
    /// Where the play can go from a state: the advised move at the side's own states, every move elsewhere.
    fn after(&self, s: usize) -> Result<Vec<usize>, String> {
        if self.game.turn[s] != self.side {
            return Ok(self.game.next[s].clone());
        }
        let to = self.moves[s];
        if to == NONE {
            return Err(format!("the plan has no advice at state {s}, where the play can come"));
        }
        if !self.game.next[s].contains(&(to as usize)) {
            return Err(format!("the plan moves from {s} to {to}, which is no move"));
        }
        Ok(vec![to as usize])
    }

    /// Every play from the starts stays in the set for ever.
    pub fn keeps(&self, starts: &[usize], set: &dyn Fn(usize) -> bool) -> Result<(), String> {
        let mut seen = vec![false; self.game.states()];
        let mut waiting = starts.to_vec();
        while let Some(s) = waiting.pop() {
            if seen[s] {
                continue;
            }
            seen[s] = true;
            if !set(s) {
                return Err(format!("following the plan, the play can come to state {s}"));
            }
            waiting.extend(self.after(s)?);
        }
        Ok(())
    }

    /// Every play from the starts comes into the set within states minus 1 moves.
    pub fn comes(&self, starts: &[usize], set: &dyn Fn(usize) -> bool) -> Result<(), String> {
        let mut longest = vec![Walk::Unseen; self.game.states()];
        for &start in starts {
            let moves = self.longest(start, set, &mut longest)?;
            if moves > self.game.states() - 1 {
                return Err(format!("following the plan from {start} takes {moves} moves"));
            }
        }
        Ok(())
    }

    /// The most moves that a play from `s` makes before it comes into the set.
    fn longest(&self, s: usize, set: &dyn Fn(usize) -> bool, walks: &mut [Walk]) -> Result<usize, String> {
        if set(s) {
            return Ok(0);
        }
        match walks[s] {
            Walk::Done(moves) => return Ok(moves),
            Walk::Under => return Err(format!("following the plan, the play can return to state {s} for ever")),
            Walk::Unseen => walks[s] = Walk::Under,
        }
        let mut most = 0;
        for to in self.after(s)? {
            most = most.max(self.longest(to, set, walks)? + 1);
        }
        walks[s] = Walk::Done(most);
        Ok(most)
    }
}

#[derive(Clone, Copy)]
enum Walk {
    Unseen,
    Under,
    Done(usize),
}
