//! Tests the library from outside, through its C interface:
//!
//!     outside short                 10,000 games and 10,000 damaged strings
//!     outside full                  100,000 games and 1,000,000 damaged strings
//!     outside count GAMES STRINGS   so many of each
//!     outside big GAMES             so many games of 512 states, most with hundreds of splits, with four allowances each
//!     outside replay HEX ALLOWANCE  one byte string
//!
//! The first difference is printed with the words that replay it, and the status is 1. Where all agree, `short` and `full`
//! still fail if the games never showed an objective, or a verdict or a mark under either objective, or if the strings
//! never met one of the refusals 1 to 11; and so does `big`, of its games, of which it needs eight for that. `count` and
//! `replay` demand nothing of this kind.

mod answer;
/// The folder of the benchmark, of whose plain solver the tests use the run alone.
#[allow(dead_code, unused_imports)]
#[path = "../../bench"]
mod bench {
    pub mod plain;
}
mod big;
mod checks;
mod damage;
mod decoder;
mod game;
mod library;
mod plays;
mod random;
mod shapes;
mod tally;
mod winner;

use random::Random;
use std::process::ExitCode;
use tally::Tally;

const USAGE: &str = "\
usage: outside short | full | count GAMES STRINGS | big GAMES | replay HEX ALLOWANCE
short, full and big fail also if an objective, verdict, mark or refusal was never met; count and replay do not";

fn main() -> ExitCode {
    let words: Vec<String> = std::env::args().skip(1).collect();
    let words: Vec<&str> = words.iter().map(|word| word.as_str()).collect();
    let done = match words[..] {
        ["short"] => many(10_000, 10_000).and_then(all_met),
        ["full"] => many(100_000, 1_000_000).and_then(all_met),
        ["count", games, strings] => many(number(games), number(strings)).map(|_| ()),
        ["big", games] => many_big(number(games)).and_then(|tally| tally.demand_games()),
        ["replay", hex, allowance] => replay(hex, number(allowance) as u16),
        _ => Err(USAGE.to_string()),
    };
    match done {
        Ok(()) => ExitCode::SUCCESS,
        Err(what) => {
            println!("{what}");
            ExitCode::FAILURE
        }
    }
}

fn number(word: &str) -> usize {
    word.parse().unwrap_or_else(|_| panic!("{word} is no number"))
}

/// Checks so many drawn games and damaged strings, says what they were, and returns what the games met and the strings.
fn many(games: usize, strings: usize) -> Result<(Tally, Tally), String> {
    let mut of_games = Tally::default();
    for seed in 0..games {
        let mut random = Random::new(seed as u64);
        let game = shapes::game(&mut random);
        let allowance = shapes::allowance(&game, &mut random);
        checked(&game.file(), allowance, &mut of_games)?;
    }
    if of_games.accepted() != games as u64 {
        return Err(format!("{} drawn games were refused", games as u64 - of_games.accepted()));
    }
    println!("games: {}", of_games.games());
    let mut of_strings = Tally::default();
    for seed in 0..strings {
        let mut random = Random::new((1 << 40) + seed as u64);
        let string = damage::string(&mut random);
        let allowance = random.pick(&[0, 1, 2, 511, 65535]);
        checked(&string, allowance, &mut of_strings)?;
    }
    println!("damaged strings: {}; {}", of_strings.refused(), of_strings.games());
    Ok((of_games, of_strings))
}

/// The games met every kind of answer, and the strings every refusal.
fn all_met((of_games, of_strings): (Tally, Tally)) -> Result<(), String> {
    of_games.demand_games()?;
    of_strings.demand_refusals()
}

/// Checks so many big games, each with no split allowed, with one, with half of what it could need, and with all.
fn many_big(games: usize) -> Result<Tally, String> {
    let mut tally = Tally::default();
    for number in 0..games {
        let game = big::game(number);
        let spare = game.states() - game::count_blocks(&game.block);
        for allowance in [0, 1, spare / 2, spare] {
            checked(&game.file(), allowance as u16, &mut tally)?;
        }
    }
    if tally.accepted() != 4 * games as u64 {
        return Err("a big game was refused".to_string());
    }
    println!("big games: {}", tally.games());
    Ok(tally)
}

fn checked(file: &[u8], allowance: u16, tally: &mut Tally) -> Result<(), String> {
    checks::check(file, allowance, tally).map_err(|what| {
        let hex: String = file.iter().map(|byte| format!("{byte:02x}")).collect();
        format!("DIFFERENCE: {what}\nreplay with: outside replay '{hex}' {allowance}")
    })
}

/// Checks one byte string, given as two digits to a byte.
fn replay(hex: &str, allowance: u16) -> Result<(), String> {
    let pairs: Vec<&[u8]> = hex.as_bytes().chunks(2).collect();
    let byte = |pair: &[u8]| u8::from_str_radix(std::str::from_utf8(pair).ok()?, 16).ok();
    let file: Option<Vec<u8>> = pairs.into_iter().map(byte).collect();
    let file = file.ok_or("the bytes are to be given as two digits to a byte")?;
    let mut tally = Tally::default();
    checked(&file, allowance, &mut tally)?;
    println!("no difference: {}; {}", tally.refused(), tally.games());
    Ok(())
}
