//! Reads a game file and prints what the solver says of it, as the program hvoyanur does.
//!
//!     rustc -O -L target/staticlib -o solve examples/rust/solve.rs
//!     ./solve examples/m.game

use std::process::ExitCode;

#[link(name = "hvoyanur_c", kind = "static")]
extern "C" {
    fn hvoyanur_solve(
        file: *const u8,
        file_len: usize,
        marks: *mut u16,
        marks_len: usize,
        blocks: *mut u16,
        blocks_len: usize,
        moves: *mut u16,
        moves_len: usize,
        allowance: u16,
    ) -> u64;
}

const MAX_STATES: usize = 512;
const NONE: u16 = 65535;

/// Three rows for the solver to write.
struct Rows {
    marks: [u16; MAX_STATES],
    blocks: [u16; MAX_STATES],
    moves: [u16; MAX_STATES],
}

enum Verdict {
    Yes { start: u16, splits: u16 },
    No { splits: u16 },
    Open { splits: u16 },
    Refused { number: u16 },
}

fn solve(file: &[u8], rows: &mut Rows, allowance: u16) -> Verdict {
    let Rows { marks, blocks, moves } = rows;
    // Slices and arrays are valid for their lengths, and the borrows see to it that they do not overlap.
    let answer = unsafe {
        hvoyanur_solve(
            file.as_ptr(),
            file.len(),
            marks.as_mut_ptr(),
            marks.len(),
            blocks.as_mut_ptr(),
            blocks.len(),
            moves.as_mut_ptr(),
            moves.len(),
            allowance,
        )
    };
    let (named, splits) = ((answer >> 16) as u16, answer as u16);
    match answer >> 32 {
        1 => Verdict::Yes { start: named, splits },
        2 => Verdict::No { splits },
        3 => Verdict::Open { splits },
        _ => Verdict::Refused { number: named },
    }
}

fn main() -> ExitCode {
    let file = match std::env::args().nth(1).map(std::fs::read) {
        Some(Ok(file)) => file,
        _ => {
            eprintln!("usage: solve FILE");
            return ExitCode::from(2);
        }
    };
    let row = [0; MAX_STATES];
    let mut rows = Rows { marks: row, blocks: row, moves: row };
    match solve(&file, &mut rows, 511) {
        Verdict::Yes { start, splits } => println!("YES {start} {splits}"),
        Verdict::No { splits } => println!("NO - {splits}"),
        Verdict::Open { splits } => println!("OPEN - {splits}"),
        Verdict::Refused { number } => {
            println!("REFUSED {number}");
            return ExitCode::FAILURE;
        }
    }
    println!("state mark block move");
    let states = u16::from_le_bytes([file[4], file[5]]) as usize;
    for s in 0..states {
        let mark = ["never", "open", "sure"][rows.marks[s] as usize];
        let to = if rows.moves[s] == NONE { "-".to_string() } else { rows.moves[s].to_string() };
        println!("{s} {mark} {} {to}", rows.blocks[s]);
    }
    ExitCode::SUCCESS
}
