//! The measured lines in parts, their means and worst, and how the time of a shape grows.

use crate::clock::geometric_mean;
use crate::measure::{Line, Times};

/// One of the two ratios of a line's times.
pub type Ratio = fn(&Times) -> f64;

/// Some of the lines under a name: a family, or all of them.
pub struct Part<'a> {
    pub name: &'static str,
    pub lines: Vec<&'a Line>,
}

impl<'a> Part<'a> {
    pub fn all(lines: &'a [Line]) -> Part<'a> {
        Part { name: "all games", lines: lines.iter().collect() }
    }

    /// A part for each family, in the order in which they come.
    pub fn families(lines: &'a [Line]) -> Vec<Part<'a>> {
        let mut parts: Vec<Part> = Vec::new();
        for line in lines {
            match parts.iter_mut().find(|part| part.name == line.case.family) {
                Some(part) => part.lines.push(line),
                None => parts.push(Part { name: line.case.family, lines: vec![line] }),
            }
        }
        parts
    }

    pub fn mean(&self, ratio: Ratio) -> f64 {
        let ratios: Vec<f64> = self.lines.iter().map(|line| ratio(&line.times)).collect();
        geometric_mean(&ratios)
    }

    /// The line with the highest ratio.
    pub fn worst(&self, ratio: Ratio) -> &'a Line {
        let by_ratio = |a: &&&Line, b: &&&Line| ratio(&a.times).total_cmp(&ratio(&b.times));
        self.lines.iter().max_by(by_ratio).unwrap()
    }
}

/// The geometric mean of the families' geometric means, so that each family counts once.
pub fn mean_of_families(lines: &[Line], ratio: Ratio) -> f64 {
    let means: Vec<f64> = Part::families(lines).iter().map(|part| part.mean(ratio)).collect();
    geometric_mean(&means)
}

/// The splits and the verified times of a shape, at 256 and at 512 states.
pub struct Growth {
    pub shape: String,
    pub splits: [f64; 2],
    pub times: [f64; 2],
}

impl Growth {
    /// Whether the larger game needs more splits.
    pub fn splits_grow(&self) -> bool {
        self.splits[1] > self.splits[0]
    }

    pub fn factor(&self) -> f64 {
        self.times[1] / self.times[0]
    }
}

/// The growth of each shape that was measured at both sizes.
pub fn growth_of_shapes(lines: &[Line]) -> Vec<Growth> {
    let sized = |states: usize| lines.iter().filter(move |line| line.case.grows && line.case.game.states() == states);
    let growth = |small: &Line| {
        let of_shape = |line: &&Line| (line.case.family, &line.case.name) == (small.case.family, &small.case.name);
        let large = sized(512).find(of_shape)?;
        Some(Growth {
            shape: small.case.name.clone(),
            splits: [small, large].map(|line| line.splits() as f64),
            times: [small, large].map(|line| line.times.verified),
        })
    };
    sized(256).filter_map(growth).collect()
}
