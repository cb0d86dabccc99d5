//! The same algorithm in plain safe Rust: the same two walks over the file, the same passes over a queue, the same search
//! for the border block, the same split, the same way back to the first decided round, and the same plan.

mod blocks;
mod file;
mod growth;
mod moves;
mod run;

pub use file::{decode, exchange, exchange_patched};
use run::Run;

pub const MAX_STATES: usize = 512;
pub const MAX_MOVES: usize = 4096;
pub const NONE: u16 = 65535;

#[derive(Clone, Copy, PartialEq, Eq, Debug)]
pub enum Verdict {
    Yes(u16, u16),
    No(u16),
    Open(u16),
    Refused(u8),
}

/// What the caller may do along the way: count rounds, moves that passes handle, and moves that border searches look at.
pub trait Watch {
    fn round(&mut self) {}
    fn handled(&mut self) {}
    fn searched(&mut self) {}
}

impl Watch for () {}

pub struct Game {
    pub reach: bool,
    pub turn: Vec<u8>,
    pub marks: Vec<u8>,
    pub block: Vec<u16>,
    pub from: Vec<u16>,
    pub to: Vec<u16>,
}

impl Game {
    pub fn states(&self) -> usize {
        self.turn.len()
    }

    pub fn moves(&self) -> impl Iterator<Item = (usize, usize)> + '_ {
        self.from.iter().zip(&self.to).map(|(&from, &to)| (from as usize, to as usize))
    }

    pub fn hunter(&self) -> u8 {
        if self.reach { 1 } else { 2 }
    }
}

pub fn solve(file: &[u8], allowance: u16, rows: [&mut [u16]; 3]) -> Verdict {
    solve_watched(file, allowance, rows, &mut ())
}

pub fn solve_watched(file: &[u8], allowance: u16, rows: [&mut [u16]; 3], watch: &mut impl Watch) -> Verdict {
    if rows.iter().any(|row| row.len() < MAX_STATES) {
        return Verdict::Refused(1);
    }
    let game = match decode(file) {
        Ok(game) => game,
        Err(refusal) => return Verdict::Refused(refusal),
    };
    let mut run = Run::new(&game);
    let end = run.rounds(allowance, watch);
    run.finish(watch);
    run.write(&end, rows);
    run.verdict(&end)
}
