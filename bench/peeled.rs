//! Games in which blocks are peeled state by state: a chain leads to the target, and the blocks that its states share are
//! split again and again from the target's end. Parameters say what stands beside the chain, how it is numbered and
//! grouped, and when the game is decided. State 0 is the start and the last state the target; side 1 moves everywhere.

use crate::game::{Game, Objective, MAX_MOVES};
use crate::random::Random;

#[derive(Clone, Copy, PartialEq, Eq)]
pub enum Order {
    /// The state next to the target has the lowest number of the chain.
    NearestLowest,
    NearestHighest,
    Shuffled,
}

#[derive(Clone, Copy, PartialEq, Eq)]
pub enum Grouping {
    /// The chain is one block.
    One,
    /// Each state of the chain shares a block with a state that only stays where it is.
    Pairs,
    /// So many blocks, dealt round: neighbours are in different ones.
    Dealt(usize),
    /// So many blocks of neighbours.
    Runs(usize),
}

#[derive(Clone, Copy, PartialEq, Eq)]
pub enum Decided {
    /// For side 1, when the whole chain is peeled.
    Hunter,
    /// For side 2, when the whole chain is peeled: its far end does not lead on.
    OtherAtEnd,
    /// For side 2, when half of the chain is peeled: the start leads to a state that shares a block with the one midway.
    /// The other half could still be peeled.
    OtherMidway,
    /// For side 2, before any split. The whole chain could still be peeled.
    OtherAtOnce,
}

#[derive(Clone, Copy)]
pub struct Peeled {
    pub states: usize,
    /// Blocks of a single state with lower numbers than the chain's, which stay possible to the end.
    pub idle: usize,
    /// The moves of each idle state to others. None: they are a chain that leads on to the far end.
    pub idle_moves: usize,
    pub order: Order,
    pub grouping: Grouping,
    /// So many moves back along the chain, from each of its states.
    pub back: usize,
    pub decided: Decided,
}

impl Peeled {
    /// The shape in words.
    pub fn name(&self) -> String {
        let grouping = match self.grouping {
            Grouping::One => "one block".to_string(),
            Grouping::Pairs => "blocks of two".to_string(),
            Grouping::Dealt(blocks) => format!("dealt to {blocks} blocks"),
            Grouping::Runs(blocks) => format!("{blocks} blocks of neighbours"),
        };
        let order = match self.order {
            Order::NearestLowest => "peeled from the lowest",
            Order::NearestHighest => "peeled from the highest",
            Order::Shuffled => "shuffled",
        };
        let decided = match self.decided {
            Decided::Hunter => "side 1 wins",
            Decided::OtherAtEnd => "side 2 wins at the end",
            Decided::OtherMidway => "side 2 wins midway",
            Decided::OtherAtOnce => "side 2 wins at once",
        };
        format!("{grouping}, {order}, {decided}{}", self.beside())
    }

    /// What stands beside the chain and leads back along it, in words.
    fn beside(&self) -> String {
        let idle = match (self.idle, self.idle_moves) {
            (0, _) => String::new(),
            (idle, 0) => format!(", beside a chain of {idle}"),
            (idle, moves) => format!(", beside {idle} with up to {moves} moves"),
        };
        if self.back == 0 { idle } else { format!("{idle}, {} moves back", self.back) }
    }

    /// The places of the chain, its traps not counted.
    fn length(&self) -> usize {
        let free = self.states - 2 - self.idle - (self.decided == Decided::OtherMidway) as usize;
        if self.grouping == Grouping::Pairs { free / 2 } else { free }
    }

    /// The state at each place of the chain, from place 0 next to the target.
    fn chain(&self) -> Vec<usize> {
        let first = 1 + self.idle;
        let mut chain: Vec<usize> = (first..first + self.length()).collect();
        match self.order {
            Order::NearestLowest => {}
            Order::NearestHighest => chain.reverse(),
            Order::Shuffled => shuffle(&mut chain),
        }
        chain
    }

    /// The class of each place: places of one class share a block.
    fn class(&self, place: usize) -> usize {
        match self.grouping {
            Grouping::One => 0,
            Grouping::Pairs => place,
            Grouping::Dealt(blocks) => place % blocks,
            Grouping::Runs(blocks) => place * blocks / self.length(),
        }
    }

    /// The moves along the chain and back along it.
    fn chain_moves(&self, chain: &[usize], next: &mut [Vec<usize>]) {
        let target = self.states - 1;
        for (place, &s) in chain.iter().enumerate() {
            let ahead = if place == 0 { target } else { chain[place - 1] };
            let last = place + 1 == chain.len();
            next[s].push(if last && self.decided == Decided::OtherAtEnd { s } else { ahead });
            next[s].extend(chain.iter().skip(place + 1).take(self.back));
        }
    }

    /// The moves of the idle states: all lead on to the far end of the chain.
    fn idle_moves(&self, far: usize, next: &mut [Vec<usize>]) {
        let free = MAX_MOVES - self.states - self.length() * self.back;
        let most = free / self.idle.max(1);
        let others = self.idle_moves.min(most).min(self.idle.saturating_sub(1));
        for i in 0..self.idle {
            if others == 0 {
                next[1 + i].push(if i + 1 < self.idle { 2 + i } else { far });
            } else {
                next[1 + i].extend((1..=others).map(|d| 1 + (i + d) % self.idle));
                next[1 + i].push(far);
            }
        }
    }

    pub fn game(&self) -> Game {
        let (chain, target) = (self.chain(), self.states - 1);
        let mut next = vec![Vec::new(); self.states];
        let mut class: Vec<usize> = (0..self.states).map(|s| self.states + s).collect();
        self.chain_moves(&chain, &mut next);
        let far = chain[chain.len() - 1];
        self.idle_moves(far, &mut next);
        for (place, &s) in chain.iter().enumerate() {
            class[s] = self.class(place);
            if self.grouping == Grouping::Pairs {
                class[s + chain.len()] = class[s];
            }
        }
        let trap = target - 1;
        match self.decided {
            Decided::OtherMidway => {
                let midway = chain[chain.len() / 2 + 3];
                class[midway] = self.states + midway;
                class[trap] = class[midway];
                next[0].push(trap);
            }
            Decided::OtherAtOnce => next[0].push(0),
            _ => next[0].push(if self.idle > 0 { 1 } else { far }),
        }
        for (s, next) in next.iter_mut().enumerate().filter(|(_, next)| next.is_empty()) {
            next.push(s);
        }
        with_blocks(next, &class)
    }
}

fn shuffle(row: &mut [usize]) {
    let mut random = Random::new(row.len() as u64);
    for i in 1..row.len() {
        row.swap(i, random.below(i + 1));
    }
}

/// A reach game of side 1 alone, from the first state to the last, in which states of one class share a block.
fn with_blocks(mut next: Vec<Vec<usize>>, class: &[usize]) -> Game {
    let states = next.len();
    next.iter_mut().for_each(|next| {
        next.sort();
        next.dedup();
    });
    Game {
        objective: Objective::Reach,
        turn: vec![1; states],
        initial: (0..states).map(|s| s == 0).collect(),
        target: (0..states).map(|s| s + 1 == states).collect(),
        block: (0..states).map(|s| (0..=s).find(|&b| class[b] == class[s]).unwrap()).collect(),
        next,
    }
}
