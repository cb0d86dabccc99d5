//! What was met, counted, so that a reader of the last lines sees that the checks were not empty, and so that a kind of
//! answer that was never met is a failure.

use crate::answer::{Answer, NO, OPEN, YES};
use crate::game::{Game, Objective};

const OBJECTIVES: [&str; 2] = ["reach", "stay"];
const WORDS: [(u16, &str); 3] = [(YES, "YES"), (NO, "NO"), (OPEN, "OPEN")];
const MARKS: [&str; 3] = ["never", "open", "sure"];

#[derive(Default)]
pub struct Tally {
    /// Games by objective, reach and stay, and by word.
    words: [[u64; 4]; 2],
    /// States of these games by objective and mark: never, open, sure.
    marks: [[u64; 3]; 2],
    splits: u64,
    split_games: u64,
    most_splits: u16,
    several_starts: u64,
    /// Calls by refusal: 1 for a short row, 2 to 11 for the file.
    refusals: [u64; 12],
}

impl Tally {
    pub fn count(&mut self, game: &Game, answer: &Answer) {
        let objective = (game.objective == Objective::Stay) as usize;
        self.words[objective][answer.word as usize] += 1;
        for &mark in &answer.marks {
            self.marks[objective][mark as usize] += 1;
        }
        self.splits += answer.splits as u64;
        self.split_games += (answer.splits > 0) as u64;
        self.most_splits = self.most_splits.max(answer.splits);
        self.several_starts += (game.starts().len() > 1) as u64;
    }

    pub fn count_refusal(&mut self, number: u16) {
        self.refusals[number as usize] += 1;
    }

    pub fn accepted(&self) -> u64 {
        self.words.iter().flatten().sum()
    }

    /// One line on the games that were accepted.
    pub fn games(&self) -> String {
        let words = |objective: usize| {
            let each = WORDS.map(|(word, name)| format!("{name} {}", self.words[objective][word as usize]));
            format!("{} {}", OBJECTIVES[objective], each.join(" "))
        };
        let marks = |mark: usize| self.marks[0][mark] + self.marks[1][mark];
        format!(
            "{} accepted: {}, {}; {} with several starts; {} states: never {}, open {}, sure {}; \
             {} splits in {} games, at most {} in one",
            self.accepted(),
            words(0),
            words(1),
            self.several_starts,
            self.marks.iter().flatten().sum::<u64>(),
            marks(0),
            marks(1),
            marks(2),
            self.splits,
            self.split_games,
            self.most_splits
        )
    }

    /// One line on the files that were refused, by number.
    pub fn refused(&self) -> String {
        let each: Vec<String> = (2..=11).map(|n| format!("{n}: {}", self.refusals[n])).collect();
        format!("{} refused: {}", self.refusals[2..].iter().sum::<u64>(), each.join(", "))
    }

    /// Fails with the names of what no accepted game showed: an objective, a verdict or a mark under an objective.
    pub fn demand_games(&self) -> Result<(), String> {
        let mut unmet = Vec::new();
        for (objective, name) in OBJECTIVES.iter().enumerate() {
            let (words, marks) = (&self.words[objective], &self.marks[objective]);
            if words.iter().sum::<u64>() == 0 {
                unmet.push(format!("a {name} game"));
            }
            let lacking = WORDS.iter().filter(|(word, _)| words[*word as usize] == 0);
            unmet.extend(lacking.map(|(_, word)| format!("the verdict {word} in a {name} game")));
            let lacking = MARKS.iter().zip(marks).filter(|(_, &count)| count == 0);
            unmet.extend(lacking.map(|(mark, _)| format!("the mark {mark} in a {name} game")));
        }
        none_unmet(unmet)
    }

    /// Fails with the names of the refusals that were never met.
    pub fn demand_refusals(&self) -> Result<(), String> {
        let lacking = (1..=11).filter(|&number: &usize| self.refusals[number] == 0);
        none_unmet(lacking.map(|number| format!("refusal {number}")).collect())
    }
}

fn none_unmet(unmet: Vec<String>) -> Result<(), String> {
    if unmet.is_empty() { Ok(()) } else { Err(format!("never met: {}", unmet.join(", "))) }
}
