//! Games as large as a file can hold, drawn from a seeded source: 512 states, most with nearly 4,096 moves, and such that
//! most need a hundred splits or more. State 0 is the start.

use crate::game::{Game, Objective, MAX_MOVES, MAX_STATES};
use crate::random::Random;
use crate::shapes::{ascending, grouped};

const DEGREE: usize = MAX_MOVES / MAX_STATES;

/// The game of this number.
pub fn game(number: usize) -> Game {
    let mut random = Random::new((1 << 41) + number as u64);
    let game = match number % 16 {
        0 => chain(MAX_STATES - 2, &mut random),
        1..=3 => chain(200, &mut random),
        4..=6 => tangled(&mut random),
        7..=11 => layered(&mut random),
        _ => twins(&mut random),
    };
    if random.chance(50) { game.exchanged() } else { game }
}

/// A reach game in which states of one class share a block, if they are equally marked.
fn with_classes(turn: Vec<u8>, target: Vec<bool>, next: Vec<Vec<usize>>, class: &[usize]) -> Game {
    let initial: Vec<bool> = (0..MAX_STATES).map(|s| s == 0).collect();
    let block = grouped(&initial, &target, class);
    Game { objective: Objective::Reach, turn, initial, target, block, next: next.into_iter().map(ascending).collect() }
}

fn turns(random: &mut Random) -> Vec<u8> {
    let ones = random.pick(&[40, 50, 60]);
    (0..MAX_STATES).map(|_| 2 - random.chance(ones) as u8).collect()
}

/// So many different states from `low` on, below `high`.
fn some(count: usize, low: usize, high: usize, random: &mut Random) -> Vec<usize> {
    let mut to = Vec::new();
    while to.len() < count.min(high - low) {
        let next = random.between(low, high - 1);
        if !to.contains(&next) {
            to.push(next);
        }
    }
    to
}

/// Moves drawn over all states, and small blocks dealt over them.
fn tangled(random: &mut Random) -> Game {
    let (percent, classes) = (random.pick(&[1, 2, 5]), random.pick(&[64, 128, 250]));
    let target = (0..MAX_STATES).map(|s| s > 0 && random.chance(percent)).collect();
    let next = (0..MAX_STATES).map(|_| some(DEGREE, 0, MAX_STATES, random)).collect();
    let class: Vec<usize> = (0..MAX_STATES).map(|s| s % classes).collect();
    with_classes(turns(random), target, next, &class)
}

/// Layers that lead to the target in the last one, with blocks over many layers. Side 1 may go back, and some states of
/// side 2 may.
fn layered(random: &mut Random) -> Game {
    let (width, astray) = (random.pick(&[4, 8]), random.pick(&[0, 2, 5]));
    let blocks = random.pick(&[1, 4, 16]);
    let turn = turns(random);
    let last = MAX_STATES - width;
    let target: Vec<bool> = (0..MAX_STATES).map(|s| s >= last).collect();
    let successors = |s: usize, random: &mut Random| {
        let ahead = (s / width * width + width).min(last);
        if turn[s] == 1 {
            let mut to = some(1, ahead, ahead + width, random);
            to.extend(some(DEGREE - 1, 0, ahead, random));
            to
        } else {
            let mut to = some(DEGREE - 1, ahead, ahead + width, random);
            if random.chance(astray) {
                to.extend(some(1, 0, ahead, random));
            }
            to
        }
    };
    let next = (0..MAX_STATES).map(|s| successors(s, random)).collect();
    let class: Vec<usize> = (0..MAX_STATES).map(|s| s * blocks / MAX_STATES).collect();
    with_classes(turn, target, next, &class)
}

/// Blocks of two: one state leads towards the target, its twin only to other twins. Each block must be split.
fn twins(random: &mut Random) -> Game {
    let (pairs, last) = (MAX_STATES / 2 - 1, MAX_STATES - 1);
    let depth = random.pick(&[2, 5, 17]);
    let falling = random.chance(50);
    let turn = turns(random);
    let run = pairs / depth;
    let ahead = |i: usize, random: &mut Random| {
        let layer = (i - 1) / run;
        let nearer = if falling { layer.checked_sub(1) } else { Some(layer + 1).filter(|&l| l * run < pairs) };
        nearer.map_or(last, |layer| 1 + layer * run + random.below(run.min(pairs - layer * run)))
    };
    let mut next = vec![vec![]; MAX_STATES];
    next[last] = vec![last];
    for i in 1..=pairs {
        next[i].extend((0..DEGREE - 1).map(|_| ahead(i, random)));
        if turn[i] == 1 {
            next[i].truncate(1);
            next[i].extend(some(DEGREE - 2, pairs + 1, last, random));
        }
        next[pairs + i] = some(DEGREE, pairs + 1, last, random);
    }
    next[0] = if falling { some(DEGREE, pairs - run, pairs, random) } else { some(DEGREE, 1, run, random) };
    let class: Vec<usize> = (0..MAX_STATES).map(|s| if s > pairs && s < last { s - pairs } else { s }).collect();
    let target = (0..MAX_STATES).map(|s| s == last).collect();
    with_classes(turn, target, next, &class)
}

/// A chain to the target whose states are one block, split state by state. The states beside it are blocks of one, with
/// many moves to each other and one to the chain's far end.
fn chain(length: usize, random: &mut Random) -> Game {
    let last = MAX_STATES - 1;
    let beside = last - 1 - length;
    let mut place: Vec<usize> = (1 + beside..last).collect();
    for i in 1..length {
        place.swap(i, random.below(i + 1));
    }
    let mut next = vec![vec![]; MAX_STATES];
    next[0] = vec![if beside > 0 { 1 } else { place[0] }];
    next[last] = vec![last];
    for s in 1..=beside {
        next[s] = some((MAX_MOVES - MAX_STATES) / beside, 1, 1 + beside, random);
        next[s].push(place[0]);
    }
    for (i, &s) in place.iter().enumerate() {
        next[s] = vec![*place.get(i + 1).unwrap_or(&last)];
    }
    let leads_on = random.chance(50);
    if !leads_on {
        next[place[0]] = vec![place[0]];
    }
    let target = (0..MAX_STATES).map(|s| s == last).collect();
    let class: Vec<usize> = (0..MAX_STATES).map(|s| s.min(1 + beside)).collect();
    let mut turn = turns(random);
    turn[1..=beside].fill(1);
    with_classes(turn, target, next, &class)
}
