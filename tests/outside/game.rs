//! A game as its file says it, and the file of a game.

pub const MAX_STATES: usize = 512;
pub const MAX_MOVES: usize = 4096;

#[derive(Clone, Copy, PartialEq, Eq, Debug)]
pub enum Objective {
    Reach,
    Stay,
}

#[derive(Clone, PartialEq, Eq, Debug)]
pub struct Game {
    pub objective: Objective,
    /// 1 or 2, for each state.
    pub turn: Vec<u8>,
    pub initial: Vec<bool>,
    pub target: Vec<bool>,
    /// The lowest member of each state's block.
    pub block: Vec<usize>,
    /// The successors of each state, ascending.
    pub next: Vec<Vec<usize>>,
}

impl Game {
    pub fn states(&self) -> usize {
        self.turn.len()
    }

    pub fn starts(&self) -> Vec<usize> {
        (0..self.states()).filter(|&s| self.initial[s]).collect()
    }

    pub fn move_count(&self) -> usize {
        self.next.iter().map(|successors| successors.len()).sum()
    }

    /// The game with the turns flipped, the other states as target, and the other objective.
    pub fn exchanged(&self) -> Game {
        let objective = match self.objective {
            Objective::Reach => Objective::Stay,
            Objective::Stay => Objective::Reach,
        };
        let turn = self.turn.iter().map(|&t| 3 - t).collect();
        let target = self.target.iter().map(|&t| !t).collect();
        Game { objective, turn, target, ..self.clone() }
    }

    pub fn file(&self) -> Vec<u8> {
        let mut bytes = Vec::new();
        let objective = match self.objective {
            Objective::Reach => 1,
            Objective::Stay => 2,
        };
        put(&mut bytes, &[8, 1, self.states(), self.move_count(), objective]);
        for s in 0..self.states() {
            put(&mut bytes, &[6, 2]);
            let marks = self.initial[s] as u8 + 2 * self.target[s] as u8;
            bytes.extend_from_slice(&[self.turn[s], marks]);
            put(&mut bytes, &[self.block[s]]);
        }
        for (from, successors) in self.next.iter().enumerate() {
            for &to in successors {
                put(&mut bytes, &[6, 3, from, to]);
            }
        }
        bytes
    }
}

fn put(bytes: &mut Vec<u8>, numbers: &[usize]) {
    for &number in numbers {
        bytes.extend_from_slice(&(number as u16).to_le_bytes());
    }
}

/// How many different blocks a row names.
pub fn count_blocks(block: &[usize]) -> usize {
    block.iter().enumerate().filter(|&(s, &b)| s == b).count()
}
