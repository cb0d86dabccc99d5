//! What a call hands back of an accepted game, and the answer of the benchmark's plain solver in the same form.

use crate::bench::plain::{self, Verdict};
use crate::game::MAX_STATES;

pub const YES: u16 = 1;
pub const NO: u16 = 2;
pub const OPEN: u16 = 3;
pub const NONE: u16 = 65535;

#[derive(Clone, PartialEq, Eq, Debug)]
pub struct Answer {
    pub word: u16,
    pub named: u16,
    pub splits: u16,
    pub marks: Vec<u16>,
    pub blocks: Vec<u16>,
    pub moves: Vec<u16>,
}

/// The plain solver's answer to the file of a game with so many states, or its refusal.
pub fn plain_answer(file: &[u8], states: usize, allowance: u16) -> Result<Answer, String> {
    let [mut marks, mut blocks, mut moves] = [0; 3].map(|_| vec![0; MAX_STATES]);
    let (word, named, splits) = match plain::solve(file, allowance, [&mut marks, &mut blocks, &mut moves]) {
        Verdict::Yes(start, splits) => (YES, start, splits),
        Verdict::No(splits) => (NO, NONE, splits),
        Verdict::Open(splits) => (OPEN, NONE, splits),
        Verdict::Refused(number) => return Err(format!("the plain solver refuses with {number}")),
    };
    for row in [&mut marks, &mut blocks, &mut moves] {
        row.truncate(states);
    }
    Ok(Answer { word, named, splits, marks, blocks, moves })
}
