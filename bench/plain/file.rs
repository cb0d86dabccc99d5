//! The game file: its refusals, its game, and the exchanged file.

use super::{Game, MAX_MOVES, MAX_STATES};

fn number(bytes: &[u8]) -> u16 {
    u16::from_le_bytes([bytes[0], bytes[1]])
}

/// The body of the record at the front, and what follows it.
fn record(rest: &[u8], length: u16, kind: u16) -> Result<(&[u8], &[u8]), u8> {
    if rest.len() < 4 {
        return Err(2);
    }
    if number(rest) != length || number(&rest[2..]) != kind {
        return Err(3);
    }
    if rest.len() < 2 + length as usize {
        return Err(2);
    }
    let (record, rest) = rest.split_at(2 + length as usize);
    Ok((&record[4..], rest))
}

struct Sections<'a> {
    reach: bool,
    states: &'a [u8],
    moves: &'a [u8],
}

/// The first walk: every refusal in its order.
fn check(file: &[u8]) -> Result<Sections<'_>, u8> {
    let (head, after_head) = record(file, 8, 1)?;
    let (states, moves, objective) = (number(head) as usize, number(&head[2..]) as usize, number(&head[4..]));
    let fits = (1..=MAX_STATES).contains(&states) && (1..=MAX_MOVES).contains(&moves);
    if !fits || !(1..=2).contains(&objective) {
        return Err(4);
    }
    let mut rest = after_head;
    for s in 0..states {
        let (body, next) = record(rest, 6, 2)?;
        let block = number(&body[2..]) as usize;
        if !(1..=2).contains(&body[0]) || body[1] > 3 || block > s {
            return Err(5);
        }
        if number(&after_head[8 * block + 6..]) as usize != block {
            return Err(5);
        }
        rest = next;
    }
    let after_states = rest;
    let mut before = None;
    for _ in 0..moves {
        let (body, next) = record(rest, 6, 3)?;
        let pair = (number(body), number(&body[2..]));
        if pair.0 as usize >= states || pair.1 as usize >= states || before >= Some(pair) {
            return Err(6);
        }
        before = Some(pair);
        rest = next;
    }
    if !rest.is_empty() {
        return Err(7);
    }
    let sections = Sections { reach: objective == 1, states: &after_head[..8 * states], moves: after_states };
    whole(&sections)?;
    Ok(sections)
}

/// Refusals 8 to 11, which look at the whole game.
fn whole(sections: &Sections) -> Result<(), u8> {
    let states = sections.states;
    if !states.chunks_exact(8).any(|state| state[5] & 1 != 0) {
        return Err(8);
    }
    let mut moved = [false; MAX_STATES];
    for one in sections.moves.chunks_exact(8) {
        moved[number(&one[4..]) as usize] = true;
    }
    if moved[..states.len() / 8].contains(&false) {
        return Err(9);
    }
    for (mark, refusal) in [(1, 10), (2, 11)] {
        let mixed = |state: &[u8]| (state[5] ^ states[8 * number(&state[6..]) as usize + 5]) & mark != 0;
        if states.chunks_exact(8).any(mixed) {
            return Err(refusal);
        }
    }
    Ok(())
}

/// The second walk: the game of an accepted file.
pub fn decode(file: &[u8]) -> Result<Game, u8> {
    let Sections { reach, states, moves } = check(file)?;
    let states = states.chunks_exact(8);
    let moves = moves.chunks_exact(8);
    Ok(Game {
        reach,
        turn: states.clone().map(|state| state[4]).collect(),
        marks: states.clone().map(|state| state[5]).collect(),
        block: states.map(|state| number(&state[6..])).collect(),
        from: moves.clone().map(|one| number(&one[4..])).collect(),
        to: moves.map(|one| number(&one[6..])).collect(),
    })
}

/// Writes the file of the exchanged game byte by byte, and returns its length.
pub fn exchange(file: &[u8], out: &mut [u8]) -> Result<usize, u8> {
    let end = 10 + check(file)?.states.len();
    let out = out.get_mut(..file.len()).ok_or(1u8)?;
    for (i, (out, &byte)) in out.iter_mut().zip(file).enumerate() {
        *out = match i {
            8 => 3 - byte,
            _ if i < 10 || i >= end => byte,
            _ => match (i - 10) % 8 {
                4 => 3 - byte,
                5 => byte ^ 2,
                _ => byte,
            },
        };
    }
    Ok(file.len())
}

/// The same by a copy of the file in which the bytes that change are patched.
pub fn exchange_patched(file: &[u8], out: &mut [u8]) -> Result<usize, u8> {
    let end = 10 + check(file)?.states.len();
    let out = out.get_mut(..file.len()).ok_or(1u8)?;
    out.copy_from_slice(file);
    out[8] = 3 - out[8];
    for state in out[10..end].chunks_exact_mut(8) {
        state[4] = 3 - state[4];
        state[5] ^= 2;
    }
    Ok(file.len())
}
