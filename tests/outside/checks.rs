//! Holds what the library hands back for a byte string against the independent reading and winner, and against the run of
//! the plain solver.

use crate::answer::{plain_answer, Answer, NO, NONE, OPEN, YES};
use crate::decoder;
use crate::game::{count_blocks, Game, Objective, MAX_STATES};
use crate::library::{exchange, solve, Solved};
use crate::plays::Plan;
use crate::random::Random;
use crate::tally::Tally;
use crate::winner::side_1_wins;

type Check = Result<(), String>;

fn expect(holds: bool, what: impl FnOnce() -> String) -> Check {
    if holds { Ok(()) } else { Err(what()) }
}

/// Everything that is checked of one byte string and one allowance. The lent memory depends on these two alone.
pub fn check(file: &[u8], allowance: u16, tally: &mut Tally) -> Check {
    let mut random = Random::of_bytes(file, allowance as u64);
    short_row(file, allowance, &mut random)?;
    tally.count_refusal(1);
    match decoder::read(file) {
        Err(number) => {
            refused(file, number, allowance, &mut random)?;
            tally.count_refusal(number);
        }
        Ok(game) => {
            let answer = accepted(file, &game, allowance, &mut random)?;
            traded(file, &game, &answer, allowance, &mut random)?;
            tally.count(&game, &answer);
        }
    }
    Ok(())
}

/// A row with fewer than 512 places is refusal 1, whatever the file.
fn short_row(file: &[u8], allowance: u16, random: &mut Random) -> Check {
    let mut lengths = [0; 3].map(|_| random.pick(&[0, MAX_STATES - 1, MAX_STATES, 600]));
    lengths[random.below(3)] = random.pick(&[0, MAX_STATES - 1]);
    let solved = solve(file, lengths, allowance, random);
    expect_refusal(&solved, 1).map_err(|what| format!("rows of {lengths:?} places: {what}"))
}

fn expect_refusal(solved: &Solved, number: u16) -> Check {
    let value = (solved.word, solved.named, solved.splits);
    expect(value == (0, number, 0), || format!("refusal {number} is due, the library returns {value:?}"))?;
    expect(solved.kept_but(0), || format!("refusal {number} changed lent memory"))
}

fn long_rows(random: &mut Random) -> [usize; 3] {
    [0; 3].map(|_| random.pick(&[MAX_STATES, 600]))
}

/// A file that is refused: both calls give its number and touch nothing.
fn refused(file: &[u8], number: u16, allowance: u16, random: &mut Random) -> Check {
    let lengths = long_rows(random);
    expect_refusal(&solve(file, lengths, allowance, random), number)?;
    let room = random.pick(&[0, file.len(), file.len() + 9]);
    let (value, out) = exchange(file, room, random);
    expect(value == number as u64, || format!("the exchange returns {value} for refusal {number}"))?;
    expect(out.kept_but(0), || format!("the exchange refuses with {number} and changes lent memory"))
}

/// An accepted file: the answer is right by the game alone, and it is the plain solver's in every place.
fn accepted(file: &[u8], game: &Game, allowance: u16, random: &mut Random) -> Result<Answer, String> {
    let answer = handed_back(file, game.states(), allowance, random)?;
    check_verdict(game, &answer)?;
    check_blocks(game, &answer, allowance)?;
    check_plan(game, &answer)?;
    let plain = plain_answer(file, game.states(), allowance)?;
    expect(plain == answer, || format!("the plain solver gives {plain:?}, the library {answer:?}"))?;
    check_round_before(file, &answer, random)?;
    Ok(answer)
}

/// What the library hands back for the file of a game with so many states.
fn handed_back(file: &[u8], states: usize, allowance: u16, random: &mut Random) -> Result<Answer, String> {
    let lengths = long_rows(random);
    let solved = solve(file, lengths, allowance, random);
    expect(solved.kept_but(states), || "solving changed memory beyond the states".to_string())?;
    expect((1..=3).contains(&solved.word), || format!("the word is {} for an accepted file", solved.word))?;
    Ok(Answer {
        word: solved.word as u16,
        named: solved.named,
        splits: solved.splits,
        marks: solved.marks.row()[..states].to_vec(),
        blocks: solved.blocks.row()[..states].to_vec(),
        moves: solved.moves.row()[..states].to_vec(),
    })
}

/// Sure states win, never states lose, and the verdict is that of the game without blocks.
fn check_verdict(game: &Game, answer: &Answer) -> Check {
    let wins = side_1_wins(game);
    for (s, &mark) in answer.marks.iter().enumerate() {
        let right = match mark {
            0 => !wins[s],
            1 => true,
            2 => wins[s],
            _ => false,
        };
        expect(right, || format!("state {s} is marked {mark}, and side 1 wins there: {}", wins[s]))?;
    }
    let starts = game.starts();
    let possible = starts.iter().any(|&s| wins[s]);
    let lowest = starts.iter().find(|&&s| answer.marks[s] == 2).map_or(NONE, |&s| s as u16);
    expect(answer.named == lowest, || format!("the start named is {}, not {lowest}", answer.named))?;
    match answer.word {
        YES => expect(possible && lowest != NONE, || "YES, and no start wins".to_string()),
        NO => expect(!possible && lowest == NONE, || "NO, and some start wins".to_string()),
        _ => expect(lowest == NONE, || "OPEN with a sure start".to_string()),
    }
}

/// The blocks at the end refine those of the file, are precise and named by their lowest members, and count the splits.
fn check_blocks(game: &Game, answer: &Answer, allowance: u16) -> Check {
    let block: Vec<usize> = answer.blocks.iter().map(|&b| b as usize).collect();
    for (s, &b) in block.iter().enumerate() {
        expect(b <= s && block[b] == b, || format!("state {s} has block {b}, which is no lowest member"))?;
        expect(game.block[s] == game.block[b], || format!("states {s} and {b} were in different blocks"))?;
        expect(answer.marks[s] == answer.marks[b], || format!("one block, two marks: {s} and {b}"))?;
    }
    let precise = !decoder::mixed(&block, &game.initial) && !decoder::mixed(&block, &game.target);
    expect(precise, || "the blocks at the end are not precise".to_string())?;
    let (splits, allowance) = (answer.splits as usize, allowance as usize);
    let begun = count_blocks(&game.block);
    let spare = game.states() - begun;
    let made = count_blocks(&block) - begun;
    expect(splits == made, || format!("{splits} splits are reported, {made} were made"))?;
    expect(splits <= allowance.min(spare), || format!("{splits} splits with allowance {allowance}"))?;
    let used_up = splits == allowance && allowance < spare;
    expect(answer.word != OPEN || used_up, || format!("OPEN after {splits} splits of {allowance}"))
}

/// With one split less than were made the answer is OPEN, since no round before the last was decided, and a single block
/// has not been split yet.
fn check_round_before(file: &[u8], answer: &Answer, random: &mut Random) -> Check {
    let allowance = match answer.splits.checked_sub(1) {
        Some(allowance) => allowance,
        None => return Ok(()),
    };
    let before = handed_back(file, answer.marks.len(), allowance, random)?;
    let (word, splits) = (before.word, before.splits);
    expect(word == OPEN && splits == allowance, || format!("with allowance {allowance}: word {word}, {splits} splits"))?;
    let mut renamed: Vec<_> = before.blocks.iter().zip(&answer.blocks).filter(|(old, new)| old != new).collect();
    renamed.dedup();
    expect(renamed.len() == 1, || format!("the last split renames blocks so: {renamed:?}"))
}

/// The winner's plan, followed against every play of the other side.
fn check_plan(game: &Game, answer: &Answer) -> Check {
    let moves = &answer.moves;
    let target = |s: usize| game.target[s];
    let others = |s: usize| !game.target[s];
    let named = [answer.named as usize];
    let loader = Plan { game, side: 1, moves };
    let ship = Plan { game, side: 2, moves };
    match (answer.word, game.objective) {
        (YES, Objective::Reach) => loader.comes(&named, &target),
        (YES, Objective::Stay) => loader.keeps(&named, &target),
        (NO, Objective::Reach) => ship.keeps(&game.starts(), &others),
        (NO, Objective::Stay) => ship.comes(&game.starts(), &others),
        _ => expect(moves.iter().all(|&m| m == NONE), || "OPEN with a plan".to_string()),
    }
}

/// The exchange of an accepted file: its bytes, its way back, who wins, and for a single start the equal run.
fn traded(file: &[u8], game: &Game, answer: &Answer, allowance: u16, random: &mut Random) -> Check {
    let other = game.exchanged();
    let bytes = exchanged_bytes(file, random)?;
    expect(bytes == other.file(), || "the exchanged file is not that of the exchanged game".to_string())?;
    let back = exchanged_bytes(&bytes, random)?;
    expect(back == file, || "exchanged twice, the file is another".to_string())?;
    let any = random.below(file.len());
    let short = random.pick(&[0, any, file.len() - 1]);
    let (value, out) = exchange(file, short, random);
    expect(value == 1 && out.kept_but(0), || format!("an output of {short} bytes: {value}"))?;
    let lost: Vec<bool> = side_1_wins(game).iter().map(|&w| !w).collect();
    expect(side_1_wins(&other) == lost, || "the exchange does not trade the winners".to_string())?;
    let run = accepted(&bytes, &other, allowance, random).map_err(|what| format!("exchanged: {what}"))?;
    if game.starts().len() == 1 {
        let due = traded_answer(game, answer);
        expect(run == due, || format!("the exchanged run gives {run:?} and {due:?} is due"))?;
    }
    Ok(())
}

/// With a single start: YES and NO, sure and never trade places, and the rest is equal.
fn traded_answer(game: &Game, answer: &Answer) -> Answer {
    let word = match answer.word {
        YES => NO,
        NO => YES,
        other => other,
    };
    let named = if word == YES { game.starts()[0] as u16 } else { NONE };
    let marks = answer.marks.iter().map(|&mark| 2 - mark).collect();
    Answer { word, named, marks, ..answer.clone() }
}

/// The exchanged file of an accepted one, written into an output that is as long or longer.
fn exchanged_bytes(file: &[u8], random: &mut Random) -> Result<Vec<u8>, String> {
    let room = file.len() + random.pick(&[0, 1, 40]);
    let (value, out) = exchange(file, room, random);
    let due = (1 << 32) + file.len() as u64;
    expect(value == due, || format!("the exchange returns {value}, not {due}"))?;
    expect(out.kept_but(file.len()), || "the exchange changed memory after the file".to_string())?;
    Ok(out.row()[..file.len()].to_vec())
}
