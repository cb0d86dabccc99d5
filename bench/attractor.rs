//! A solver without blocks: from the file's bytes to a verdict, marks and a plan, by a queue of states that the hunting
//! side wins from and a counter for each state of the moves that are still missing. Linear in states and moves. No state
//! is left open, and nothing is split.

use crate::plain::{decode, Game, Verdict, NONE};

/// The moves into each state, side by side.
struct Arrivals {
    first: Vec<u16>,
    from: Vec<u16>,
}

impl Arrivals {
    fn of(game: &Game) -> Arrivals {
        let mut first = vec![0; game.states() + 1];
        for &to in &game.to {
            first[to as usize + 1] += 1;
        }
        for s in 0..game.states() {
            first[s + 1] += first[s];
        }
        let mut place = first.clone();
        let mut arrivals = vec![0; game.from.len()];
        for (from, to) in game.moves() {
            arrivals[place[to] as usize] = from as u16;
            place[to] += 1;
        }
        Arrivals { first, from: arrivals }
    }

    fn at(&self, s: usize) -> &[u16] {
        &self.from[self.first[s] as usize..self.first[s + 1] as usize]
    }
}

/// How many moves of each state must lead to won states before it is won: one of the hunter's, all of the other side's.
fn missing(game: &Game) -> Vec<u16> {
    let mut missing = vec![0; game.states()];
    for &from in &game.from {
        missing[from as usize] += 1;
    }
    let hunter = game.hunter();
    for (missing, &turn) in missing.iter_mut().zip(&game.turn) {
        if turn == hunter {
            *missing = 1;
        }
    }
    missing
}

/// For each state the pass in which it is won by the hunter, from 1 for the prey itself; 0 if it never is.
fn passes(game: &Game) -> Vec<u16> {
    let arrivals = Arrivals::of(game);
    let mut missing = missing(game);
    let prey = |&marks: &u8| ((marks & 2 != 0) == game.reach) as u16;
    let mut pass: Vec<u16> = game.marks.iter().map(prey).collect();
    let mut queue = Vec::with_capacity(game.states());
    queue.extend((0..game.states()).filter(|&s| pass[s] != 0));
    let mut handled = 0;
    while handled < queue.len() {
        let won = queue[handled];
        for &s in arrivals.at(won) {
            let s = s as usize;
            if pass[s] == 0 {
                missing[s] -= 1;
                if missing[s] == 0 {
                    pass[s] = pass[won] + 1;
                    queue.push(s);
                }
            }
        }
        handled += 1;
    }
    pass
}

/// Writes the winner's moves: the hunter's to the lowest successor of an earlier pass, the other side's to the lowest
/// one that is never won.
fn write_plan(game: &Game, pass: &[u16], winner: u8, plan: &mut [u16]) {
    let hunts = winner == game.hunter();
    plan.fill(NONE);
    for (from, to) in game.moves() {
        let good = if hunts { pass[to] != 0 && pass[to] < pass[from] } else { pass[from] == 0 && pass[to] == 0 };
        if good && game.turn[from] == winner && plan[from] == NONE {
            plan[from] = to as u16;
        }
    }
}

/// Solves a file and writes the marks and the plan.
pub fn solve(file: &[u8], rows: [&mut [u16]; 2]) -> Verdict {
    let game = match decode(file) {
        Ok(game) => game,
        Err(refusal) => return Verdict::Refused(refusal),
    };
    let states = game.states();
    let pass = passes(&game);
    let [marks, plan] = rows;
    let (marks, plan) = (&mut marks[..states], &mut plan[..states]);
    for (mark, &pass) in marks.iter_mut().zip(&pass) {
        *mark = if (pass != 0) == game.reach { 2 } else { 0 };
    }
    let start = (0..states).find(|&s| game.marks[s] & 1 != 0 && marks[s] == 2);
    write_plan(&game, &pass, if start.is_some() { 1 } else { 2 }, plan);
    start.map_or(Verdict::No(0), |start| Verdict::Yes(start as u16, 0))
}
