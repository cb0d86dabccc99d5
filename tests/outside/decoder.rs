//! An independent reading of a game file, written from 'Game file' and 'Refusals in their order'.

use crate::game::{Game, Objective, MAX_MOVES, MAX_STATES};

struct Reader<'a> {
    rest: &'a [u8],
}

impl<'a> Reader<'a> {
    /// The body of the next record: 2 if fewer than 4 bytes remain, 3 for its length or kind, 2 if its body is cut.
    fn body(&mut self, length: usize, kind: usize) -> Result<&'a [u8], u16> {
        if self.rest.len() < 4 {
            return Err(2);
        }
        if number(&self.rest[0..2]) != length || number(&self.rest[2..4]) != kind {
            return Err(3);
        }
        if self.rest.len() < 2 + length {
            return Err(2);
        }
        let (record, rest) = self.rest.split_at(2 + length);
        self.rest = rest;
        Ok(&record[4..])
    }
}

fn number(bytes: &[u8]) -> usize {
    bytes[0] as usize + 256 * bytes[1] as usize
}

/// The game of an accepted file, or the refusal from 2 to 11.
pub fn read(file: &[u8]) -> Result<Game, u16> {
    let mut reader = Reader { rest: file };
    let (states, moves, objective) = read_head(&mut reader)?;
    let mut game = Game {
        objective,
        turn: Vec::new(),
        initial: Vec::new(),
        target: Vec::new(),
        block: Vec::new(),
        next: vec![Vec::new(); states],
    };
    for s in 0..states {
        read_state(&mut reader, &mut game, s)?;
    }
    let mut before = None;
    for _ in 0..moves {
        let body = reader.body(6, 3)?;
        let pair = (number(&body[0..2]), number(&body[2..4]));
        if pair.0 >= states || pair.1 >= states || before >= Some(pair) {
            return Err(6);
        }
        game.next[pair.0].push(pair.1);
        before = Some(pair);
    }
    if !reader.rest.is_empty() {
        return Err(7);
    }
    whole(&game)?;
    Ok(game)
}

fn read_head(reader: &mut Reader) -> Result<(usize, usize, Objective), u16> {
    let body = reader.body(8, 1)?;
    let (states, moves) = (number(&body[0..2]), number(&body[2..4]));
    let objective = match number(&body[4..6]) {
        1 => Objective::Reach,
        2 => Objective::Stay,
        _ => return Err(4),
    };
    if !(1..=MAX_STATES).contains(&states) || !(1..=MAX_MOVES).contains(&moves) {
        return Err(4);
    }
    Ok((states, moves, objective))
}

fn read_state(reader: &mut Reader, game: &mut Game, s: usize) -> Result<(), u16> {
    let body = reader.body(6, 2)?;
    let (turn, marks, block) = (body[0], body[1], number(&body[2..4]));
    if turn != 1 && turn != 2 || marks > 3 || block > s {
        return Err(5);
    }
    if block < s && game.block[block] != block {
        return Err(5);
    }
    game.turn.push(turn);
    game.initial.push(marks & 1 != 0);
    game.target.push(marks & 2 != 0);
    game.block.push(block);
    Ok(())
}

/// Refusals 8 to 11, which look at the whole game.
fn whole(game: &Game) -> Result<(), u16> {
    if !game.initial.contains(&true) {
        return Err(8);
    }
    if game.next.iter().any(|successors| successors.is_empty()) {
        return Err(9);
    }
    if mixed(&game.block, &game.initial) {
        return Err(10);
    }
    if mixed(&game.block, &game.target) {
        return Err(11);
    }
    Ok(())
}

/// Whether some block has members inside the set and others outside it.
pub fn mixed(block: &[usize], set: &[bool]) -> bool {
    let mut inside = vec![false; block.len()];
    let mut outside = vec![false; block.len()];
    for (s, &b) in block.iter().enumerate() {
        if set[s] {
            inside[b] = true;
        } else {
            outside[b] = true;
        }
    }
    (0..block.len()).any(|b| inside[b] && outside[b])
}
