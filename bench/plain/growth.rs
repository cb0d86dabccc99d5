//! A set of states that grows in passes over a queue.

use super::blocks::Blocks;
use super::moves::Moves;
use super::{Game, Watch, NONE};

/// A set that grows in passes.
pub struct Growth {
    /// The pass in which each state entered, 0 for a state outside.
    pub pass: Vec<u16>,
    /// The states of the set in the order in which they entered, the first of them handled.
    queue: Vec<u16>,
    handled: usize,
    /// The moves of each state into handled ones.
    pub have: Vec<u16>,
    /// The members of each block that have as many such moves as the hunter needs there.
    pub hits: Vec<u16>,
}

impl Growth {
    pub fn new(states: usize) -> Growth {
        let row = vec![0; states];
        Growth { pass: row.clone(), queue: Vec::with_capacity(states), handled: 0, have: row.clone(), hits: row }
    }

    /// Starts with the prey: the target of a reach game, and what lies outside it in a stay game.
    pub fn start_from_prey(&mut self, game: &Game) {
        self.have.fill(0);
        self.queue.clear();
        self.handled = 0;
        for (s, (pass, &marks)) in self.pass.iter_mut().zip(&game.marks).enumerate() {
            let prey = (marks & 2 != 0) == game.reach;
            *pass = prey as u16;
            if prey {
                self.queue.push(s as u16);
            }
        }
    }

    /// Starts where another set has come to.
    pub fn start_from(&mut self, other: &Growth) {
        self.pass.copy_from_slice(&other.pass);
        self.have.copy_from_slice(&other.have);
        self.queue.clone_from(&other.queue);
        self.handled = other.handled;
    }

    /// Grows until a pass adds nothing: by the blocks that lie wholly in the forced-step set, or else by those that meet it.
    pub fn grow(&mut self, moves: &Moves, blocks: &Blocks, whole: bool, watch: &mut impl Watch) {
        let end = self.queue.len();
        self.count_hits(moves, blocks);
        for b in 0..self.hits.len() {
            let goal = if whole { blocks.size[b] } else { 1 };
            if self.pass[b] == 0 && self.hits[b] > 0 && self.hits[b] >= goal {
                self.enter(blocks, b, 2);
            }
        }
        self.passes(moves, blocks, whole, end, watch);
    }

    /// Grows on by whole blocks after a split into a part wholly inside the forced-step set and one wholly outside.
    pub fn grow_on(&mut self, moves: &Moves, blocks: &Blocks, inner: usize, outer: usize, watch: &mut impl Watch) {
        let end = self.queue.len();
        self.hits[inner] = blocks.size[inner];
        self.hits[outer] = 0;
        self.enter(blocks, inner, 2);
        self.passes(moves, blocks, true, end, watch);
    }

    fn count_hits(&mut self, moves: &Moves, blocks: &Blocks) {
        self.hits.fill(0);
        for ((&b, have), need) in blocks.name.iter().zip(&self.have).zip(&moves.need) {
            if have >= need {
                self.hits[b as usize] += 1;
            }
        }
    }

    /// The passes: each handles what the one before put into the queue, the first what stands there up to `end`.
    fn passes(&mut self, moves: &Moves, blocks: &Blocks, whole: bool, mut end: usize, watch: &mut impl Watch) {
        let goal = |b: usize| if whole { blocks.size[b] } else { 1 };
        let mut number = 2;
        loop {
            while self.handled < end {
                let state = self.queue[self.handled] as usize;
                self.handle(state, moves, blocks, &goal, number, watch);
                self.handled += 1;
            }
            if end == self.queue.len() {
                return;
            }
            end = self.queue.len();
            number += 1;
        }
    }

    /// Counts every move into a state, and lets the blocks enter that have now as many hits as they need.
    fn handle(
        &mut self,
        state: usize,
        moves: &Moves,
        blocks: &Blocks,
        goal: &impl Fn(usize) -> u16,
        number: u16,
        watch: &mut impl Watch,
    ) {
        let mut k = moves.last_into[state] as usize;
        while k != NONE as usize {
            watch.handled();
            let s = moves.from[k] as usize;
            self.have[s] += 1;
            if self.have[s] == moves.need[s] {
                let b = blocks.name[s] as usize;
                self.hits[b] += 1;
                if self.hits[b] == goal(b) {
                    self.enter(blocks, b, number);
                }
            }
            k = moves.before[k] as usize;
        }
    }

    fn enter(&mut self, blocks: &Blocks, b: usize, number: u16) {
        for s in blocks.members(b) {
            if self.pass[s] == 0 {
                self.pass[s] = number;
                self.queue.push(s as u16);
            }
        }
    }
}
