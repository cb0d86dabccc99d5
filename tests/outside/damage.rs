//! Byte strings that are not quite game files, or not at all.

use crate::game::{Game, MAX_MOVES, MAX_STATES};
use crate::random::Random;
use crate::shapes;

/// A damaged file, a game with a fault as a whole, or random bytes.
pub fn string(random: &mut Random) -> Vec<u8> {
    match random.below(20) {
        0 => (0..random.below(60)).map(|_| random.next() as u8).collect(),
        1 => records(random),
        2..=7 => faulty_game(random),
        _ => {
            let mut bytes = shapes::small(random).file();
            for _ in 0..random.pick(&[1, 1, 1, 2, 4]) {
                hurt(&mut bytes, random);
            }
            bytes
        }
    }
}

/// Records of the right lengths and kinds in a likely order, with small random fields.
fn records(random: &mut Random) -> Vec<u8> {
    let (states, moves) = (random.between(1, 3), random.between(1, 4));
    let mut bytes = vec![8, 0, 1, 0, states as u8, 0, moves as u8, 0, random.between(1, 2) as u8, 0];
    for _ in 0..states {
        let block = random.below(states) as u8;
        bytes.extend([6, 0, 2, 0, random.between(1, 2) as u8, random.below(4) as u8, block, 0]);
    }
    for _ in 0..moves {
        bytes.extend([6, 0, 3, 0, random.below(states) as u8, 0, random.below(states) as u8, 0]);
    }
    bytes
}

/// A well-formed file whose game is at fault: starts, moves or blocks.
fn faulty_game(random: &mut Random) -> Vec<u8> {
    let mut game = shapes::small(random);
    for _ in 0..random.pick(&[1, 1, 1, 2, 3]) {
        let s = random.below(game.states());
        match random.below(7) {
            0 => game.initial = vec![false; game.states()],
            1 => game.initial[s] = !game.initial[s],
            2 => game.target[s] = !game.target[s],
            3 if game.move_count() > game.next[s].len() => game.next[s].clear(),
            4 => game.block[s] = random.below(s + 1),
            5 => join_blocks(&mut game, random),
            _ => game.turn[s] = random.pick(&[0, 1, 2, 3]),
        }
    }
    game.file()
}

/// Two blocks become one, named by the lower.
fn join_blocks(game: &mut Game, random: &mut Random) {
    let pair = [0; 2].map(|_| game.block[random.below(game.states())]);
    let (low, high) = (pair[0].min(pair[1]), pair[0].max(pair[1]));
    game.block.iter_mut().filter(|b| **b == high).for_each(|b| *b = low);
}

/// One change of a byte string.
fn hurt(bytes: &mut Vec<u8>, random: &mut Random) {
    if bytes.len() < 10 {
        bytes.extend((0..random.between(1, 12)).map(|_| random.next() as u8));
        return;
    }
    let at = random.below(bytes.len());
    match random.below(12) {
        0..=1 => bytes[at] ^= 1 << random.below(8),
        2 => bytes[at] = random.pick(&[0, 1, 2, 3, 4, 6, 8, 255]),
        3 => bytes[at] = random.next() as u8,
        4 => bytes.truncate(at),
        5 => bytes.truncate(bytes.len() - random.between(1, 9)),
        6 => insert(bytes, at, random),
        7 => {
            let to = (at + random.between(1, 8)).min(bytes.len());
            bytes.drain(at..to);
        }
        8 => bytes.extend((0..random.between(1, 9)).map(|_| random.next() as u8)),
        9 => head_field(bytes, random),
        _ => swap_records(bytes, random),
    }
}

fn insert(bytes: &mut Vec<u8>, at: usize, random: &mut Random) {
    for _ in 0..random.between(1, 8) {
        bytes.insert(at, random.pick(&[0, 1, 2, 6, 255]));
    }
}

/// A field of the head takes a value at or over its limits.
fn head_field(bytes: &mut [u8], random: &mut Random) {
    let at = random.pick(&[4, 6, 8]);
    let over = [0, 1, 2, 3, MAX_STATES, MAX_STATES + 1, MAX_MOVES, MAX_MOVES + 1, 256, 257, 65535];
    let value = random.pick(&over) as u16;
    bytes[at..at + 2].copy_from_slice(&value.to_le_bytes());
}

/// Two records of 8 bytes trade places, or one is repeated over another.
fn swap_records(bytes: &mut [u8], random: &mut Random) {
    let count = (bytes.len() - 10) / 8;
    if count < 2 {
        return;
    }
    let (a, b) = (10 + 8 * random.below(count), 10 + 8 * random.below(count));
    let first: Vec<u8> = bytes[a..a + 8].to_vec();
    let second: Vec<u8> = bytes[b..b + 8].to_vec();
    bytes[b..b + 8].copy_from_slice(&first);
    if random.chance(60) {
        bytes[a..a + 8].copy_from_slice(&second);
    }
}
