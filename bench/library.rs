//! The two calls of the verified library, over lent slices.

use crate::plain::Verdict;

#[link(name = "hvoyanur_c", kind = "static")]
extern "C" {
    fn hvoyanur_solve(
        file: *const u8,
        file_len: usize,
        marks: *mut u16,
        marks_len: usize,
        blocks: *mut u16,
        blocks_len: usize,
        moves: *mut u16,
        moves_len: usize,
        allowance: u16,
    ) -> u64;
    fn hvoyanur_exchange(file: *const u8, file_len: usize, out: *mut u8, out_len: usize) -> u64;
}

pub fn solve(file: &[u8], allowance: u16, rows: [&mut [u16]; 3]) -> Verdict {
    let [marks, blocks, moves] = rows;
    let answer = unsafe {
        hvoyanur_solve(
            file.as_ptr(),
            file.len(),
            marks.as_mut_ptr(),
            marks.len(),
            blocks.as_mut_ptr(),
            blocks.len(),
            moves.as_mut_ptr(),
            moves.len(),
            allowance,
        )
    };
    let (named, splits) = ((answer >> 16) as u16, answer as u16);
    match answer >> 32 {
        1 => Verdict::Yes(named, splits),
        2 => Verdict::No(splits),
        3 => Verdict::Open(splits),
        _ => Verdict::Refused(named as u8),
    }
}

pub fn exchange(file: &[u8], out: &mut [u8]) -> Result<usize, u8> {
    let answer = unsafe { hvoyanur_exchange(file.as_ptr(), file.len(), out.as_mut_ptr(), out.len()) };
    if answer >> 32 == 1 { Ok(answer as u32 as usize) } else { Err(answer as u8) }
}
