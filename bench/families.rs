//! The games that are timed, in families.

use crate::game::{Game, Objective, MAX_MOVES, MAX_STATES};
use crate::peeled::{Decided, Grouping, Order, Peeled};
use crate::random::Random;
use crate::{shapes, small};

/// As many splits as a game can need.
pub const ALL: u16 = 65535;

const SIZES: [usize; 4] = [64, 128, 256, MAX_STATES];

pub struct Case {
    pub family: &'static str,
    pub name: String,
    pub allowance: u16,
    pub game: Game,
    /// Whether the game is one of a shape that grows: the same name with other numbers of states.
    pub grows: bool,
}

impl Case {
    pub fn title(&self) -> String {
        if self.grows { format!("{}, {} states", self.name, self.game.states()) } else { self.name.clone() }
    }
}

pub fn solving() -> Vec<Case> {
    let mut cases = small_cases();
    cases.extend(sized("states", "chains of 8", &chains_of_8));
    cases.extend(sized("moves", "4,096 moves", &|n| ladder(n, MAX_MOVES / n)));
    cases.extend(sized("passes", "chain, blocks of one state", &unfolded_chain));
    cases.extend(sized("layers", "layers of 8 in a block each", &layers));
    cases.extend(sized("decided at once", "one block could be split", &|n| at_once(n).game()));
    cases.push(single("splits", "chain in one block, 16 splits".to_string(), folded_chain(19, 1)));
    cases.extend(sized("splits", "chain in one block", &|n| folded_chain(n, 1)));
    cases.extend(sized("splits", "chain in one block, up to 8 moves each", &|n| folded_chain(n, 8)));
    for (i, (name, _)) in worst(MAX_STATES).iter().enumerate() {
        cases.extend(sized("worst", name, &|n| worst(n)[i].1.game()));
    }
    cases.extend(drawn_cases());
    cases.extend(as_tested(24));
    cases
}

fn single(family: &'static str, name: String, game: Game) -> Case {
    Case { family, name, allowance: ALL, game, grows: false }
}

/// Games of one shape that grow, as they are and exchanged.
fn sized(family: &'static str, name: &str, make: &dyn Fn(usize) -> Game) -> Vec<Case> {
    let as_is = SIZES.iter().map(|&n| (name.to_string(), make(n)));
    let exchanged = SIZES.iter().map(|&n| (format!("{name}, exchanged"), make(n).exchanged()));
    let games = as_is.chain(exchanged);
    games.map(|(name, game)| Case { grows: true, ..single(family, name, game) }).collect()
}

/// The games of the sheet of cases, and the first of a few states that the tests from outside draw.
fn small_cases() -> Vec<Case> {
    let mut cases = Vec::new();
    for (name, allowance, game) in small::games() {
        cases.push(Case { allowance: allowance.unwrap_or(ALL), ..single("small", name.to_string(), game) });
    }
    let mut random = Random::new(1);
    for n in [2, 3, 4, 6, 8, 12, 16] {
        let mut games = std::iter::repeat_with(|| shapes::game(&mut random));
        let game = games.find(|game| game.states() == n).unwrap();
        cases.push(single("small", format!("drawn, {n} states"), game));
    }
    cases
}

/// Drawn games of each size. One of 512 states is not a larger one of 256, so they are not held against each other.
fn drawn_cases() -> Vec<Case> {
    let mut cases = Vec::new();
    for (degree, seed) in [(2, 1), (8, 5)] {
        for n in SIZES {
            let game = drawn(n, degree, seed * n as u64);
            let name = format!("{n} states, {degree} moves each");
            cases.push(single("drawn", format!("{name}, exchanged"), game.exchanged()));
            cases.push(single("drawn", name, game));
        }
    }
    cases
}

/// The first games with 64 states or more that the tests from outside draw from one seed.
fn as_tested(count: usize) -> Vec<Case> {
    let mut random = Random::new(2);
    let games = std::iter::repeat_with(|| shapes::game(&mut random)).filter(|game| game.states() >= 64);
    let name = |i: usize, game: &Game| format!("no. {}, {} states, {} moves", i + 1, game.states(), game.move_count());
    let case = |(i, game): (usize, Game)| single("as tested", name(i, &game), game);
    games.take(count).enumerate().map(case).collect()
}

/// The shapes that `bench search` finds to be the worst of their kind, with so many states.
fn worst(n: usize) -> [(&'static str, Peeled); 5] {
    let border_block_last = Peeled { order: Order::NearestHighest, grouping: Grouping::Pairs, ..one_block(n) };
    [
        ("one block, border member last", at_end(n, 0, 0)),
        ("one block beside a chain of single states", at_end(n, n / 4, 0)),
        ("one block beside single states with many moves", at_end(n, n / 8, n)),
        ("blocks of two, border block last", border_block_last),
        ("one block, decided midway", Peeled { decided: Decided::OtherMidway, ..one_block(n) }),
    ]
}

/// One block beside idle states. When all of it is peeled, it is known that its far end does not lead on.
fn at_end(states: usize, idle: usize, idle_moves: usize) -> Peeled {
    Peeled { idle, idle_moves, decided: Decided::OtherAtEnd, ..one_block(states) }
}

/// One block that could be peeled, beside a start that leads nowhere.
fn at_once(states: usize) -> Peeled {
    Peeled { decided: Decided::OtherAtOnce, ..one_block(states) }
}

/// A chain in one block that is peeled from its lowest member on.
pub fn one_block(states: usize) -> Peeled {
    Peeled {
        states,
        idle: 0,
        idle_moves: 0,
        order: Order::NearestLowest,
        grouping: Grouping::One,
        back: 0,
        decided: Decided::Hunter,
    }
}

/// Hundreds of splits, after which side 2 is found to have won midway.
pub fn decided_late() -> Game {
    Peeled { decided: Decided::OtherMidway, ..one_block(MAX_STATES) }.game()
}

/// The largest file: everything is target, so that one pass for each row and no split are needed.
pub fn largest() -> Game {
    let mut game = ladder(MAX_STATES, MAX_MOVES / MAX_STATES);
    game.target = vec![true; MAX_STATES];
    game.block = (0..MAX_STATES).collect();
    game
}

/// The largest file with a fault that the last test finds.
pub fn refused_last() -> Game {
    let mut game = largest();
    let last = MAX_STATES - 1;
    game.target[last] = false;
    game.block[last] = last - 1;
    game
}

/// Start 0. States with equal marks and class share a block.
fn game_of(turn: Vec<u8>, target: Vec<bool>, next: Vec<Vec<usize>>, class: impl Fn(usize) -> usize) -> Game {
    let n = turn.len();
    let initial: Vec<bool> = (0..n).map(|s| s == 0).collect();
    let key = |s: usize| (initial[s], target[s], class(s));
    let block = (0..n).map(|s| (0..=s).find(|&b| key(b) == key(s)).unwrap()).collect();
    Game { objective: Objective::Reach, turn, initial, target, block, next }
}

/// Every eighth state is in the target, the others go on to the next one; a block for each state.
fn chains_of_8(n: usize) -> Game {
    let turn = (0..n).map(|s| 1 + (s % 2) as u8).collect();
    let target = (0..n).map(|s| s % 8 == 7).collect();
    game_of(turn, target, (0..n).map(|s| vec![(s + 1).min(n - 1)]).collect(), |s| s)
}

/// Drawn turns and moves; eight states to a block, and one state in twenty in the target.
pub fn drawn(n: usize, degree: usize, seed: u64) -> Game {
    let mut random = Random::new(seed);
    let turn = (0..n).map(|_| 1 + random.chance(50) as u8).collect();
    let target = (0..n).map(|s| s > 0 && random.chance(5)).collect();
    let next = (0..n).map(|_| successors(n, degree, &mut random)).collect();
    game_of(turn, target, next, |s| s / 8)
}

fn successors(n: usize, degree: usize, random: &mut Random) -> Vec<usize> {
    let mut to = Vec::new();
    while to.len() < degree {
        let next = random.below(n);
        if !to.contains(&next) {
            to.push(next);
        }
    }
    to.sort();
    to
}

/// Each state may go to the next, stay, or go to those before it, round the end. Every third state is side 2's. Four
/// states to a block.
fn ladder(n: usize, degree: usize) -> Game {
    let turn = (0..n).map(|s| 1 + (s % 3 == 2) as u8).collect();
    let target = (0..n).map(|s| s == n - 1).collect();
    let next = |s: usize| {
        let mut to: Vec<usize> = (0..degree).map(|d| (s + 1 + n - d) % n).collect();
        to.sort();
        to
    };
    game_of(turn, target, (0..n).map(next).collect(), |s| s / 4)
}

/// A chain to the target, the states between in one block. Each may also stay or go back by up to `degree` - 2.
pub fn folded_chain(n: usize, degree: usize) -> Game {
    let target = (0..n).map(|s| s == n - 1).collect();
    let next = |s: usize| ((s + 2).saturating_sub(degree)..=s + 1).filter(|&t| t < n).collect::<Vec<_>>();
    let next = (0..n).map(|s| if s == n - 1 { vec![s] } else { next(s) }).collect();
    game_of(vec![1; n], target, next, |_| 0)
}

/// Layers of eight states, a block each, that lead to the target in the last one. The sides take turns; side 1 may go
/// back a layer, and one state in sixteen of side 2's may go to a trap.
fn layers(n: usize) -> Game {
    let mut random = Random::new(n as u64);
    let turn: Vec<u8> = (0..n).map(|s| 1 + (s / 8 % 2) as u8).collect();
    let target = (0..n).map(|s| s + 2 == n).collect();
    let mut next = |s: usize| {
        let mut to: Vec<usize> = [0; 2].map(|_| (s / 8 * 8 + 8 + random.below(8)).min(n - 2)).to_vec();
        if turn[s] == 1 {
            to.push((s / 8 * 8).saturating_sub(8) + random.below(8));
        } else if random.below(16) == 0 {
            to.push(n - 1);
        }
        to.sort();
        to.dedup();
        to
    };
    let mut next: Vec<Vec<usize>> = (0..n).map(|s| next(s)).collect();
    next[n - 2] = vec![n - 2];
    next[n - 1] = vec![n - 1];
    game_of(turn, target, next, |s| s / 8)
}

fn unfolded_chain(n: usize) -> Game {
    let target = (0..n).map(|s| s == n - 1).collect();
    let turn = (0..n).map(|s| 1 + (s % 2) as u8).collect();
    game_of(turn, target, (0..n).map(|s| vec![(s + 1).min(n - 1)]).collect(), |s| s)
}
