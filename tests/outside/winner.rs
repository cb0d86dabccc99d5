//! Who wins, written from 'The game' alone: it knows no blocks, no rounds and no splits.

use crate::game::{Game, Objective};

/// For each state, whether side 1 wins the game's objective from there.
pub fn side_1_wins(game: &Game) -> Vec<bool> {
    match game.objective {
        Objective::Reach => reaches(game),
        Objective::Stay => stays(game),
    }
}

/// A state wins reach if it is in the target or in the forced-step set of states that win in fewer moves. A state is
/// counted down as its successors are found to win: side 1 needs one of them, side 2 lets go only when all of them win.
fn reaches(game: &Game) -> Vec<bool> {
    let mut before = vec![Vec::new(); game.states()];
    let mut missing = vec![0; game.states()];
    for s in 0..game.states() {
        for &to in &game.next[s] {
            before[to].push(s);
        }
        missing[s] = if game.turn[s] == 1 { 1 } else { game.next[s].len() };
    }
    let mut wins = game.target.clone();
    let mut waiting: Vec<usize> = (0..game.states()).filter(|&s| wins[s]).collect();
    while let Some(found) = waiting.pop() {
        for &s in &before[found] {
            if !wins[s] {
                missing[s] -= 1;
                if missing[s] == 0 {
                    wins[s] = true;
                    waiting.push(s);
                }
            }
        }
    }
    wins
}

/// A state wins stay if side 1 can keep the play in the target for every number of moves: what it can keep for one move
/// more is what it keeps now and lies in the forced-step set of that.
fn stays(game: &Game) -> Vec<bool> {
    let mut kept = game.target.clone();
    loop {
        let holds = |s: usize| {
            let mut into = game.next[s].iter().map(|&to| kept[to]);
            if game.turn[s] == 1 { into.any(|k| k) } else { into.all(|k| k) }
        };
        let longer: Vec<bool> = (0..game.states()).map(|s| kept[s] && holds(s)).collect();
        if longer == kept {
            return kept;
        }
        kept = longer;
    }
}
