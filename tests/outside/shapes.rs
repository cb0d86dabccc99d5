//! Games of many shapes, drawn from a seeded source.

use crate::game::{Game, Objective, MAX_MOVES, MAX_STATES};
use crate::random::Random;

/// A game that is accepted. Most are small; a few have hundreds of states, and a few of these need hundreds of splits.
pub fn game(random: &mut Random) -> Game {
    let game = match random.below(2000) {
        0..=1 => chain(random.pick(&[200, 250, 300, MAX_STATES]), random),
        2..=20 => chain(random.between(2, 100), random),
        21..=900 => {
            let states = size(random).min(160);
            layered(states, random.pick(&[1, 1, 2, 3, 7]), random)
        }
        _ => mixed(size(random), random),
    };
    if random.chance(50) { game.exchanged() } else { game }
}

fn size(random: &mut Random) -> usize {
    match random.below(1000) {
        0..=399 => random.between(1, 9),
        400..=799 => random.between(10, 32),
        800..=959 => random.between(33, 64),
        960..=989 => random.between(65, 160),
        990..=994 => random.between(161, MAX_STATES),
        _ => MAX_STATES,
    }
}

/// A small game, for strings that will be damaged.
pub fn small(random: &mut Random) -> Game {
    let states = if random.chance(90) { random.between(1, 6) } else { random.between(7, 24) };
    if random.chance(40) { layered(states, 2, random) } else { mixed(states, random) }
}

/// A game with independently drawn turns, moves, marks and blocks.
fn mixed(states: usize, random: &mut Random) -> Game {
    let initial = starts(states, random);
    let target = targets(states, random);
    let turn = turns(states, random);
    let block = blocks(&initial, &target, &turn, random);
    let next = moves(states, random);
    let objective = random.pick(&[Objective::Reach, Objective::Stay]);
    Game { objective, turn, initial, target, block, next }
}

/// A chain to the target whose middle is one block, which is peeled state by state.
fn chain(states: usize, random: &mut Random) -> Game {
    let mut game = layered(states, 1, random);
    game.block = grouped(&game.initial, &game.target, &vec![0; states]);
    game
}

/// Layers that lead to the target in the last one. Side 1 may also go back, and now and then side 2 may.
fn layered(states: usize, width: usize, random: &mut Random) -> Game {
    let turn = turns(states, random);
    let back = [random.pick(&[0, 30, 100]), random.pick(&[0, 0, 0, 0, 3, 20])];
    let mut next = Vec::new();
    for s in 0..states {
        let ahead = (s / width + 1) * width;
        let forward = |random: &mut Random| (ahead + random.below(width)).min(states - 1);
        let mut to: Vec<usize> = (0..random.between(1, 2)).map(|_| forward(random)).collect();
        if random.chance(back[turn[s] as usize - 1]) {
            to.push(random.below(s + 1));
        }
        next.push(ascending(to));
    }
    let starts = if random.chance(75) { 1 } else { random.between(1, width).min(states) };
    let targets = random.between(1, width);
    let initial: Vec<bool> = (0..states).map(|s| s < starts).collect();
    let target: Vec<bool> = (0..states).map(|s| s + targets >= states).collect();
    let block = blocks(&initial, &target, &turn, random);
    Game { objective: Objective::Reach, turn, initial, target, block, next }
}

fn turns(states: usize, random: &mut Random) -> Vec<u8> {
    let ones = random.pick(&[0, 20, 50, 50, 80, 100]);
    let alternate = random.chance(20);
    let turn = |s: usize, random: &mut Random| {
        if alternate { 1 + (s % 2) as u8 } else { 2 - random.chance(ones) as u8 }
    };
    (0..states).map(|s| turn(s, random)).collect()
}

fn starts(states: usize, random: &mut Random) -> Vec<bool> {
    let mut initial = vec![false; states];
    match random.below(10) {
        0..=5 => {}
        6..=7 => initial = chosen(states, random.pick(&[5, 20, 50]), random),
        8 => initial = vec![true; states],
        _ => initial[states - 1] = true,
    }
    initial[random.below(states)] = true;
    initial
}

fn targets(states: usize, random: &mut Random) -> Vec<bool> {
    let mut target = vec![false; states];
    match random.below(12) {
        0 => {}
        1 => target = vec![true; states],
        2..=3 => target[states - 1] = true,
        4..=5 => target[random.below(states)] = true,
        _ => target = chosen(states, random.pick(&[5, 20, 50, 80, 95]), random),
    }
    target
}

fn chosen(states: usize, percent: usize, random: &mut Random) -> Vec<bool> {
    (0..states).map(|_| random.chance(percent)).collect()
}

fn moves(states: usize, random: &mut Random) -> Vec<Vec<usize>> {
    let most = (MAX_MOVES / states).min(states);
    let degree = match random.below(8) {
        0 => 1,
        1..=3 => most.min(2),
        4..=5 => most.min(4),
        6 => most.min(8),
        _ => most,
    };
    let reach = random.pick(&[1, 3, states, states, states]).min(states);
    let every = random.chance(30);
    let successors = |s: usize, random: &mut Random| {
        if every && degree == states {
            return (0..states).collect();
        }
        let count = if every { degree } else { random.between(1, degree) };
        let near = |random: &mut Random| (s + states - reach / 2 + random.below(reach + 1)) % states;
        ascending((0..count).map(|_| near(random)).collect())
    };
    (0..states).map(|s| successors(s, random)).collect()
}

pub fn ascending(mut to: Vec<usize>) -> Vec<usize> {
    to.sort();
    to.dedup();
    to
}

/// Blocks from the coarsest precise ones to one for each state.
fn blocks(initial: &[bool], target: &[bool], turn: &[u8], random: &mut Random) -> Vec<usize> {
    let states = initial.len();
    let classes = random.between(1, states);
    let run = random.between(1, states);
    let class: Vec<usize> = match random.below(8) {
        0..=3 => vec![0; states],
        4 => turn.iter().map(|&t| t as usize).collect(),
        5 => (0..states).collect(),
        6 => (0..states).map(|_| random.below(classes)).collect(),
        _ => (0..states).map(|s| s / run).collect(),
    };
    grouped(initial, target, &class)
}

/// States with equal marks and class share a block, named by its lowest member.
pub fn grouped(initial: &[bool], target: &[bool], class: &[usize]) -> Vec<usize> {
    let key = |s: usize| (initial[s], target[s], class[s]);
    (0..class.len()).map(|s| (0..=s).find(|&b| key(b) == key(s)).unwrap()).collect()
}

/// An allowance: none, few, about what the game could need, the program's own, or any number.
pub fn allowance(game: &Game, random: &mut Random) -> u16 {
    let spare = game.states() - crate::game::count_blocks(&game.block);
    match random.below(10) {
        0 => 0,
        1 => random.below(4) as u16,
        2 => random.below(spare + 1) as u16,
        3 => spare as u16,
        4 => spare.saturating_sub(1) as u16,
        5..=6 => 65535,
        7..=8 => 511,
        _ => random.next() as u16,
    }
}
