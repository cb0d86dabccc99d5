//! The goals, and whether what was measured meets them.

use crate::measure::{Line, Times};
use crate::parts::{mean_of_families, Growth, Part};

/// The most that the time may grow from 256 to 512 states, where the splits do not grow and where they do.
pub const GROWTH: [f64; 2] = [2.5, 5.0];

struct Goal {
    what: String,
    at_most: f64,
    measured: f64,
}

fn goal(what: impl Into<String>, at_most: f64, measured: f64) -> Goal {
    Goal { what: what.into(), at_most, measured }
}

/// The word for a measured figure that should be at most so much.
pub fn met(measured: f64, at_most: f64) -> &'static str {
    if measured <= at_most { "yes" } else { "NO" }
}

fn goals(lines: &[Line], growth: &[Growth]) -> Vec<Goal> {
    let all = Part::all(lines);
    let (plain, attractor) = (Times::over_plain, Times::over_attractor);
    let (slowest, furthest) = (all.worst(plain), all.worst(attractor));
    let fastest_growth = |splits_grow: bool| {
        let factors = growth.iter().filter(|growth| growth.splits_grow() == splits_grow).map(Growth::factor);
        factors.fold(0.0, f64::max)
    };
    vec![
        goal("verified / plain, geometric mean over all games", 1.3, all.mean(plain)),
        goal(format!("verified / plain, worst ({})", slowest.case.title()), 2.0, plain(&slowest.times)),
        goal("verified / attractor, geometric mean over all families, each by its own mean", 3.0, mean_of_families(lines, attractor)),
        goal(format!("verified / attractor, worst ({})", furthest.case.title()), 150.0, attractor(&furthest.times)),
        goal("growth where the splits do not grow, worst", GROWTH[0], fastest_growth(false)),
        goal("growth where the splits grow, worst", GROWTH[1], fastest_growth(true)),
    ]
}

pub fn print(lines: &[Line], growth: &[Growth]) {
    println!("### Goals\n");
    println!("| goal | at most | measured | met |");
    println!("|---|--:|--:|---|");
    let goals = goals(lines, growth);
    for goal in &goals {
        println!("| {} | {} | {:.2} | {} |", goal.what, goal.at_most, goal.measured, met(goal.measured, goal.at_most));
    }
    let missed = goals.iter().filter(|goal| goal.measured > goal.at_most).count();
    println!("\n{} of {} goals are met.\n", goals.len() - missed, goals.len());
}
