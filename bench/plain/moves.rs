//! The moves of a game, indexed once for a call.

use super::{Game, NONE};

/// A game's moves, found by the state that they leave and by the state that they lead to.
pub struct Moves<'a> {
    pub from: &'a [u16],
    to: &'a [u16],
    /// The place of each state's first move, and the end after the last one: the moves ascend.
    first: Vec<u16>,
    /// The last move into each state, and for each move the one before it into the same state.
    pub last_into: Vec<u16>,
    pub before: Vec<u16>,
    /// How many moves into a set the hunter needs at each state: one where it moves itself, all where the other side does.
    pub need: Vec<u16>,
}

impl<'a> Moves<'a> {
    pub fn of(game: &'a Game) -> Moves<'a> {
        let mut first = vec![0; game.states() + 1];
        let mut last_into = vec![NONE; game.states()];
        let mut before = Vec::with_capacity(game.from.len());
        for (k, (from, to)) in game.moves().enumerate() {
            first[from + 1] = k as u16 + 1;
            before.push(last_into[to]);
            last_into[to] = k as u16;
        }
        let count = first.windows(2).map(|ends| ends[1] - ends[0]);
        let own = game.turn.iter().map(|&turn| turn == game.hunter());
        let need = own.zip(count).map(|(own, count)| if own { 1 } else { count }).collect();
        Moves { from: &game.from, to: &game.to, first, last_into, before, need }
    }

    /// The successors of a state, ascending.
    pub fn out_of(&self, s: usize) -> &[u16] {
        &self.to[self.first[s] as usize..self.first[s + 1] as usize]
    }
}
