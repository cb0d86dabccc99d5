//! The games of the sheet of cases.

use crate::game::{Game, Objective};

/// Name, allowance of splits where there is one, and game.
pub fn games() -> Vec<(&'static str, Option<u16>, Game)> {
    let [p5, p6, p7] = of_one_state();
    vec![
        ("P1", None, m()),
        ("P2, no split allowed", Some(0), m()),
        ("P3", None, p3()),
        ("P4", None, m().exchanged()),
        ("P5", None, p5),
        ("P6", None, p6),
        ("P7", None, p7),
        ("P8", None, p8()),
        ("P9", None, p9()),
    ]
}

/// The game of P1.
pub fn m() -> Game {
    Game {
        objective: Objective::Reach,
        turn: vec![1, 2, 2, 1, 1],
        initial: vec![true, false, false, false, false],
        target: vec![false, false, false, true, false],
        block: vec![0, 1, 1, 3, 4],
        next: vec![vec![1, 2], vec![3], vec![3, 4], vec![3], vec![4]],
    }
}

fn p3() -> Game {
    let mut game = m();
    game.next[0] = vec![2];
    game
}

fn of_one_state() -> [Game; 3] {
    [(Objective::Reach, true), (Objective::Reach, false), (Objective::Stay, true)].map(|(objective, target)| Game {
        objective,
        turn: vec![1],
        initial: vec![true],
        target: vec![target],
        block: vec![0],
        next: vec![vec![0]],
    })
}

fn p8() -> Game {
    Game {
        objective: Objective::Reach,
        turn: vec![1; 4],
        initial: vec![true, true, false, false],
        target: vec![false, false, true, false],
        block: vec![0, 0, 2, 3],
        next: vec![vec![2], vec![3], vec![2], vec![3]],
    }
}

fn p9() -> Game {
    let mut game = m();
    game.turn = vec![1, 1, 2, 1, 1];
    game.next = vec![vec![1], vec![3], vec![4], vec![3], vec![4]];
    game
}
