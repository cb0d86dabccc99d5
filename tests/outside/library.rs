//! The two calls of the library, over lent memory that is watched on both sides.

use crate::random::Random;

#[link(name = "hvoyanur_c", kind = "static")]
extern "C" {
    fn hvoyanur_solve(
        file: *const u8,
        file_len: usize,
        marks: *mut u16,
        marks_len: usize,
        blocks: *mut u16,
        blocks_len: usize,
        moves: *mut u16,
        moves_len: usize,
        allowance: u16,
    ) -> u64;
    fn hvoyanur_exchange(file: *const u8, file_len: usize, out: *mut u8, out_len: usize) -> u64;
}

/// A row that is lent, between two guards, and a copy of what all of it held before the call.
pub struct Lent<T> {
    memory: Vec<T>,
    before: Vec<T>,
    guard: usize,
    length: usize,
}

impl<T: Copy + PartialEq> Lent<T> {
    /// A row of `length` places. Now and then it has no guards, so that the row's own ends are the ends of its memory.
    pub fn new(length: usize, random: &mut Random, place: impl Fn(u64) -> T) -> Lent<T> {
        let guard = if random.chance(25) { 0 } else { 32 };
        let memory: Vec<T> = (0..length + 2 * guard).map(|_| place(random.next())).collect();
        Lent { before: memory.clone(), memory, guard, length }
    }

    pub fn row(&self) -> &[T] {
        &self.memory[self.guard..self.guard + self.length]
    }

    /// The pointer and the length that are handed over: NULL for a row without places.
    fn lend(&mut self) -> (*mut T, usize) {
        let row = &mut self.memory[self.guard..self.guard + self.length];
        (if row.is_empty() { std::ptr::null_mut() } else { row.as_mut_ptr() }, row.len())
    }

    /// Whether everything but the row's first `written` places holds what it held before the call.
    pub fn kept_but(&self, written: usize) -> bool {
        let (from, to) = (self.guard, self.guard + written);
        self.memory[..from] == self.before[..from] && self.memory[to..] == self.before[to..]
    }
}

/// What the solving call returned, taken apart, with the rows that were lent to it.
pub struct Solved {
    pub word: u64,
    pub named: u16,
    pub splits: u16,
    pub marks: Lent<u16>,
    pub blocks: Lent<u16>,
    pub moves: Lent<u16>,
}

impl Solved {
    pub fn kept_but(&self, written: usize) -> bool {
        self.marks.kept_but(written) && self.blocks.kept_but(written) && self.moves.kept_but(written)
    }
}

/// The pointer and the length of a file: NULL for an empty one.
fn read(file: &[u8]) -> (*const u8, usize) {
    (if file.is_empty() { std::ptr::null() } else { file.as_ptr() }, file.len())
}

/// Solves a file with rows of the given lengths (marks, blocks, moves). The file ends where its memory ends.
pub fn solve(file: &[u8], lengths: [usize; 3], allowance: u16, random: &mut Random) -> Solved {
    let file: Box<[u8]> = file.into();
    let mut lent = |length| Lent::new(length, random, |bits| bits as u16);
    let [mut marks, mut blocks, mut moves] = lengths.map(&mut lent);
    let (bytes, marks_row, blocks_row, moves_row) = (read(&file), marks.lend(), blocks.lend(), moves.lend());
    let value = unsafe {
        hvoyanur_solve(
            bytes.0,
            bytes.1,
            marks_row.0,
            marks_row.1,
            blocks_row.0,
            blocks_row.1,
            moves_row.0,
            moves_row.1,
            allowance,
        )
    };
    Solved { word: value >> 32, named: (value >> 16) as u16, splits: value as u16, marks, blocks, moves }
}

/// Exchanges a file into an output of the given length.
pub fn exchange(file: &[u8], length: usize, random: &mut Random) -> (u64, Lent<u8>) {
    let file: Box<[u8]> = file.into();
    let mut out = Lent::new(length, random, |bits| bits as u8);
    let (bytes, row) = (read(&file), out.lend());
    let value = unsafe { hvoyanur_exchange(bytes.0, bytes.1, row.0, row.1) };
    (value, out)
}
