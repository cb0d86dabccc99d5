//! A search for games that take long as a multiple of the solver without blocks: over the shapes in which blocks are
//! peeled, with all their parameters; over games as the tests from outside draw them; and by climbing from a game, where
//! one thing at a time is changed and the change is kept if it makes more work.

use crate::families::{self, one_block, Case, ALL};
use crate::game::{Game, MAX_STATES};
use crate::measure::{Line, Rows};
use crate::peeled::{Decided, Grouping, Order, Peeled};
use crate::random::Random;
use crate::watches::Count;
use crate::{attractor, climb, clock, plain, shapes};

/// What is tried, and its plain time as a multiple of the attractor's.
struct Tried<T> {
    what: T,
    ratio: f64,
}

fn tried<T>(what: T, game: &Game) -> Tried<T> {
    let (file, mut rows) = (game.file(), Rows::new());
    let plain = clock::least(3, &mut || _ = plain::solve(&file, ALL, rows.lend()));
    let attractor = clock::least(3, &mut || _ = attractor::solve(&file, rows.lend_two()));
    Tried { what, ratio: plain / attractor }
}

/// The highest of them, the highest first.
fn highest<T>(mut all: Vec<Tried<T>>, count: usize) -> Vec<T> {
    all.sort_by(|a, b| b.ratio.total_cmp(&a.ratio));
    all.into_iter().take(count).map(|tried| tried.what).collect()
}

pub fn print() {
    println!("| found by | game | verdict | splits | rounds | verified | plain | attractor | verified / attractor |");
    println!("|---|---|---|--:|--:|--:|--:|--:|--:|");
    for (name, game) in peeled_games(10) {
        print_line("parameters", name, game);
    }
    for game in drawn_games(20_000, 5) {
        print_line("drawing", format!("{} states, {} moves", game.states(), game.move_count()), game);
    }
    let starts = [families::drawn(MAX_STATES, 2, 1), families::drawn(MAX_STATES, 2, 2), one_block(MAX_STATES).game()];
    for (name, start) in ["a drawn game", "another drawn game", "one block, border member last"].iter().zip(starts) {
        let game = climb::from(start, 2000);
        print_line("climbing", format!("from {name}, {} moves", game.move_count()), game);
    }
}

fn print_line(how: &str, name: String, game: Game) {
    let line = Line::of(Case { family: "search", name, allowance: ALL, game, grows: false });
    println!(
        "| {how} | {} | {} | {} | {} | {:.0} | {:.0} | {:.0} | {:.2} |",
        line.case.name,
        line.word(),
        line.splits(),
        line.count.rounds,
        line.times.verified,
        line.times.plain,
        line.times.attractor,
        line.times.over_attractor(),
    );
}

/// The worst shapes at 256 states, as games of 512.
fn peeled_games(count: usize) -> Vec<(String, Game)> {
    let ways = |shape: &Peeled| [false, true].map(|exchanged| (*shape, exchanged));
    let all = grid(MAX_STATES / 2).iter().flat_map(ways).map(|way| tried(way, &game_of(way))).collect();
    let doubled = |(shape, exchanged): (Peeled, bool)| {
        let shape = Peeled { states: 2 * shape.states, idle: 2 * shape.idle, ..shape };
        let way = if exchanged { ", exchanged" } else { "" };
        (shape.name() + way, game_of((shape, exchanged)))
    };
    highest(all, count).into_iter().map(doubled).collect()
}

fn game_of((shape, exchanged): (Peeled, bool)) -> Game {
    if exchanged { shape.game().exchanged() } else { shape.game() }
}

/// Every choice of the parameters.
fn grid(states: usize) -> Vec<Peeled> {
    let mut shapes = vec![one_block(states)];
    let groupings = [Grouping::Pairs, Grouping::Dealt(2), Grouping::Dealt(16), Grouping::Runs(2), Grouping::Runs(16)];
    vary(&mut shapes, &groupings, |shape, grouping| shape.grouping = grouping);
    vary(&mut shapes, &[Order::NearestHighest, Order::Shuffled], |shape, order| shape.order = order);
    let others = [Decided::OtherAtEnd, Decided::OtherMidway, Decided::OtherAtOnce];
    vary(&mut shapes, &others, |shape, decided| shape.decided = decided);
    vary(&mut shapes, &[6], |shape, back| shape.back = back);
    let beside = [(8, 0), (8, states), (4, 0), (4, 8), (2, 0), (2, 2), (2, 14)];
    vary(&mut shapes, &beside, |shape, (part, moves)| {
        shape.idle = states / part;
        shape.idle_moves = moves;
    });
    shapes
}

/// Adds to the shapes all that come from them by one of the changes.
fn vary<T: Copy>(shapes: &mut Vec<Peeled>, changes: &[T], change: impl Fn(&mut Peeled, T)) {
    for i in 0..shapes.len() {
        for &to in changes {
            let mut shape = shapes[i];
            change(&mut shape, to);
            shapes.push(shape);
        }
    }
}

/// The worst of so many drawn games that have 64 states or more.
fn drawn_games(draws: usize, count: usize) -> Vec<Game> {
    let mut random = Random::new(7);
    let games = (0..draws).map(|_| shapes::game(&mut random)).filter(|game| game.states() >= 64);
    let all = games.map(|game| tried(game.clone(), &game)).collect();
    highest(all, count)
}

/// The work that a game makes for a move or state of it: each round's sweep over the states, and the moves looked at.
pub fn work(game: &Game) -> f64 {
    let mut count = Count::default();
    plain::solve_watched(&game.file(), ALL, Rows::new().lend(), &mut count);
    let work = count.rounds * game.states() + count.handled + count.searched;
    work as f64 / (game.states() + game.move_count()) as f64
}
