//! The run over the rounds, and what it hands back.

use super::blocks::Blocks;
use super::growth::Growth;
use super::moves::Moves;
use super::{Game, Verdict, Watch, NONE};

/// How the run ended: with the hunter's verdict, with the other side's, or with neither.
pub enum End {
    Hunter,
    Other,
    Open,
}

/// The run over the rounds. `lower` holds what the hunter surely wins, `upper` what it possibly does.
pub struct Run<'a> {
    game: &'a Game,
    moves: Moves<'a>,
    blocks: Blocks,
    lower: Growth,
    upper: Growth,
    /// The splits made: the block, and the number that the other part got.
    splits: Vec<(u16, u16)>,
}

impl<'a> Run<'a> {
    pub fn new(game: &'a Game) -> Run<'a> {
        Run {
            game,
            moves: Moves::of(game),
            blocks: Blocks::new(game.block.clone()),
            lower: Growth::new(game.states()),
            upper: Growth::new(game.states()),
            splits: Vec::new(),
        }
    }

    /// The rounds, up to the first that is decided or may not split. Whether the other side's verdict is due is asked
    /// at rounds 0, 1, 3, 7 and so on, and at the end; the first round in which it was due is found by going back.
    pub fn rounds(&mut self, allowance: u16, watch: &mut impl Watch) -> End {
        let (mut due, mut clear) = (0, 0);
        self.lower.start_from_prey(self.game);
        self.lower.grow(&self.moves, &self.blocks, true, watch);
        loop {
            watch.round();
            if self.wins(&self.lower) {
                return End::Hunter;
            }
            let made = self.splits.len();
            let border = if made < allowance as usize { self.border_block(watch) } else { None };
            if border.is_none() || made == due {
                self.grow_upper(watch);
                if !self.wins(&self.upper) {
                    self.go_back(clear, watch);
                    return End::Other;
                }
                due = 2 * made + 1;
                clear = made + 1;
            }
            match border {
                None => return End::Open,
                Some(b) => self.split(b, watch),
            }
        }
    }

    /// Whether the starts are such that the hunter wins from this set: one of its choice in a reach game, where side 1
    /// hunts and chooses the start, and all of them in a stay game.
    fn wins(&self, set: &Growth) -> bool {
        let inside = |(&marks, &pass): (&u8, &u16)| (marks & 1 != 0).then(|| pass != 0);
        let mut starts = self.game.marks.iter().zip(&set.pass).filter_map(inside);
        if self.game.reach { starts.any(|inside| inside) } else { starts.all(|inside| inside) }
    }

    fn grow_upper(&mut self, watch: &mut impl Watch) {
        self.upper.start_from(&self.lower);
        self.upper.grow(&self.moves, &self.blocks, false, watch);
    }

    /// The lowest-numbered block outside `lower` with a member in the hunter's forced-step set of it. Blocks without hits
    /// have none.
    fn border_block(&self, watch: &mut impl Watch) -> Option<u16> {
        for (b, &name) in self.blocks.name.iter().enumerate() {
            if name as usize != b || self.lower.pass[b] != 0 || self.lower.hits[b] == 0 {
                continue;
            }
            for s in self.blocks.members(b) {
                let mut into = self.moves.out_of(s).iter().map(|&to| {
                    watch.searched();
                    self.lower.pass[to as usize] != 0
                });
                let own = self.game.turn[s] == self.game.hunter();
                if if own { into.any(|into| into) } else { into.all(|into| into) } {
                    return Some(name);
                }
            }
        }
        None
    }

    /// Splits a block into the members in the hunter's forced-step set of `lower` and the others, and lets `lower` grow on.
    fn split(&mut self, b: u16, watch: &mut impl Watch) {
        let (have, need) = (&self.lower.have, &self.moves.need);
        let inside = |s: usize| have[s] >= need[s];
        let other = self.blocks.split(b, inside);
        let (inner, outer) = if inside(b as usize) { (b, other) } else { (other, b) };
        self.splits.push((b, other));
        self.lower.grow_on(&self.moves, &self.blocks, inner as usize, outer as usize, watch);
    }

    /// Goes back to the first round, from `clear` on, that was decided for the other side. The present one is.
    fn go_back(&mut self, clear: usize, watch: &mut impl Watch) {
        let mut low = clear;
        while low < self.splits.len() {
            let middle = (low + self.splits.len()) / 2;
            let blocks = self.blocks.before_splits(&self.splits[middle..]);
            self.upper.start_from_prey(self.game);
            self.upper.grow(&self.moves, &blocks, false, watch);
            if self.wins(&self.upper) {
                low = middle + 1;
            } else {
                self.blocks = blocks;
                self.splits.truncate(middle);
            }
        }
    }

    /// Both sets of the last round, `lower` with its pass numbers.
    pub fn finish(&mut self, watch: &mut impl Watch) {
        if !self.splits.is_empty() {
            self.lower.start_from_prey(self.game);
            self.lower.grow(&self.moves, &self.blocks, true, watch);
        }
        self.grow_upper(watch);
    }

    fn marks(&self) -> impl Iterator<Item = u16> + '_ {
        let (inside, outside) = if self.game.reach { (2, 0) } else { (0, 2) };
        self.lower.pass.iter().zip(&self.upper.pass).map(move |(&lower, &upper)| match (lower, upper) {
            (0, 0) => outside,
            (0, _) => 1,
            _ => inside,
        })
    }

    /// The winner's move at a state: one who hunts goes to an earlier pass, one who flees stays outside.
    fn advice(&self, s: usize, end: &End) -> u16 {
        let hunts = self.game.turn[s] == self.game.hunter();
        let (lower, upper) = (&self.lower.pass, &self.upper.pass);
        let mut out = self.moves.out_of(s).iter();
        let good = match end {
            End::Hunter if hunts => out.find(|&&to| (1..lower[s]).contains(&lower[to as usize])),
            End::Other if !hunts && upper[s] == 0 => out.find(|&&to| upper[to as usize] == 0),
            _ => None,
        };
        good.copied().unwrap_or(NONE)
    }

    pub fn write(&self, end: &End, rows: [&mut [u16]; 3]) {
        let [marks, blocks, moves] = rows;
        marks.iter_mut().zip(self.marks()).for_each(|(place, mark)| *place = mark);
        blocks[..self.game.states()].copy_from_slice(&self.blocks.name);
        moves[..self.game.states()].iter_mut().enumerate().for_each(|(s, place)| *place = self.advice(s, end));
    }

    pub fn verdict(&self, end: &End) -> Verdict {
        let splits = self.splits.len() as u16;
        match (end, self.game.reach) {
            (End::Open, _) => Verdict::Open(splits),
            (End::Hunter, false) | (End::Other, true) => Verdict::No(splits),
            _ => {
                let starts = self.game.marks.iter().map(|&marks| marks & 1 != 0);
                let start = starts.zip(self.marks()).position(|(initial, mark)| initial && mark == 2);
                Verdict::Yes(start.unwrap() as u16, splits)
            }
        }
    }
}
