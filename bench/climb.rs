//! Climbing towards games that make more work: one move, turn or block is changed at a time.

use crate::game::{Game, MAX_MOVES};
use crate::random::Random;
use crate::search::work;

/// The game reached by so many tries, of which those are kept that make no less work.
pub fn from(start: Game, tries: usize) -> Game {
    let mut random = Random::new(start.states() as u64);
    let (mut best, mut most) = (start.clone(), work(&start));
    for _ in 0..tries {
        let mut game = best.clone();
        for _ in 0..random.between(1, 3) {
            change(&mut game, &mut random);
        }
        let work = work(&game);
        if work >= most {
            (best, most) = (game, work);
        }
    }
    best
}

fn change(game: &mut Game, random: &mut Random) {
    let s = random.below(game.states());
    match random.below(5) {
        0 => game.turn[s] = 3 - game.turn[s],
        1 => regroup(game, s, random),
        2 if game.next[s].len() > 1 => {
            let i = random.below(game.next[s].len());
            game.next[s].remove(i);
        }
        3 if game.move_count() < MAX_MOVES => add_move(game, s, random),
        _ => {
            let i = random.below(game.next[s].len());
            game.next[s].remove(i);
            add_move(game, s, random);
        }
    }
}

fn add_move(game: &mut Game, s: usize, random: &mut Random) {
    let to = random.below(game.states());
    game.next[s].push(to);
    game.next[s].sort();
    game.next[s].dedup();
}

/// Puts a state into the block of another one with the same marks, and names all blocks anew.
fn regroup(game: &mut Game, s: usize, random: &mut Random) {
    let other = random.below(game.states());
    if (game.initial[s], game.target[s]) != (game.initial[other], game.target[other]) {
        return;
    }
    let mut class = game.block.clone();
    class[s] = class[other];
    let mut lowest = vec![None; game.states()];
    for (s, &class) in class.iter().enumerate() {
        game.block[s] = *lowest[class].get_or_insert(s);
    }
}
