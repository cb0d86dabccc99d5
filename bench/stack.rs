//! How much stack one call takes: the stack below is painted, the call is made, and the lowest place that it changed is
//! sought. It reads memory that no variable holds, which is sound only as a measurement.

use crate::black_box::black_box;
use crate::families::{self, ALL};
use crate::measure::Rows;
use crate::plain::MAX_STATES;
use crate::{library, small};

const PAINT: u8 = 0xa5;
const PAINTED: usize = 1 << 20;

/// Paints the stack below the caller, and returns the lowest painted address.
#[inline(never)]
fn paint() -> usize {
    let painted = [PAINT; PAINTED];
    black_box(&painted).as_ptr() as usize
}

/// The bytes of stack between the caller's frame and the lowest place that the call changed.
#[inline(never)]
fn used_by(call: &mut dyn FnMut()) -> usize {
    let here = 0u8;
    let top = black_box(&here) as *const u8 as usize;
    let lowest = paint();
    call();
    let changed = (lowest..top).find(|&at| unsafe { (at as *const u8).read_volatile() } != PAINT);
    top - changed.unwrap_or(top)
}

/// The files whose solving is measured.
fn files() -> Vec<(&'static str, Vec<u8>)> {
    vec![
        ("P1", small::m().file()),
        ("no split, largest file", families::largest().file()),
        ("509 splits, 512 states", families::folded_chain(MAX_STATES, 8).file()),
        ("side 2 wins after hundreds of splits", families::decided_late().file()),
    ]
}

pub fn print() {
    let measure = || {
        println!("| call | bytes of stack |");
        println!("|---|--:|");
        let mut rows = Rows::new();
        for (name, file) in files() {
            let bytes = used_by(&mut || _ = library::solve(&file, ALL, rows.lend()));
            println!("| `hvoyanur_solve`, {name} | {bytes} |");
        }
        let largest = families::largest().file();
        let mut out = vec![0; largest.len()];
        let bytes = used_by(&mut || _ = library::exchange(&largest, &mut out));
        println!("| `hvoyanur_exchange`, largest file | {bytes} |");
    };
    std::thread::Builder::new().stack_size(4 << 20).spawn(measure).unwrap().join().unwrap();
}
