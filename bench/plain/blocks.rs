//! The present blocks and their splits.

use super::NONE;

/// The present blocks, with their sizes, and the members of each linked from the highest down.
pub struct Blocks {
    pub name: Vec<u16>,
    pub size: Vec<u16>,
    last: Vec<u16>,
    before: Vec<u16>,
}

impl Blocks {
    pub fn new(name: Vec<u16>) -> Blocks {
        let mut size = vec![0; name.len()];
        let mut last = vec![NONE; name.len()];
        let mut before = Vec::with_capacity(name.len());
        for (s, &b) in name.iter().enumerate() {
            size[b as usize] += 1;
            before.push(last[b as usize]);
            last[b as usize] = s as u16;
        }
        Blocks { name, size, last, before }
    }

    pub fn members(&self, b: usize) -> impl Iterator<Item = usize> + '_ {
        let mut next = self.last[b];
        std::iter::from_fn(move || {
            let member = next as usize;
            next = *self.before.get(member)?;
            Some(member)
        })
    }

    /// Splits a block into the members inside and the others. The part that holds the state of the block's number keeps
    /// that number, and the number of the other part, its lowest member, is returned.
    pub fn split(&mut self, b: u16, inside: impl Fn(usize) -> bool) -> u16 {
        let kept = inside(b as usize);
        let (mut own_last, mut own_size) = (NONE, 0);
        let (mut other, mut other_last, mut other_size) = (NONE, NONE, 0);
        for s in b as usize..self.name.len() {
            if self.name[s] == b {
                if inside(s) == kept {
                    self.before[s] = own_last;
                    own_last = s as u16;
                    own_size += 1;
                } else {
                    if other_size == 0 {
                        other = s as u16;
                    }
                    self.name[s] = other;
                    self.before[s] = other_last;
                    other_last = s as u16;
                    other_size += 1;
                }
            }
        }
        for (name, last, size) in [(b, own_last, own_size), (other, other_last, other_size)] {
            self.last[name as usize] = last;
            self.size[name as usize] = size;
        }
        other
    }

    /// The blocks before these splits were made.
    pub fn before_splits(&self, splits: &[(u16, u16)]) -> Blocks {
        let mut name = self.name.clone();
        for &(b, other) in splits.iter().rev() {
            name.iter_mut().filter(|name| **name == other).for_each(|name| *name = b);
        }
        Blocks::new(name)
    }
}
