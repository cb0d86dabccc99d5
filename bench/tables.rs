//! The tables of times, and what they come to.

use crate::black_box::black_box;
use crate::families::{self, ALL};
use crate::goals::{self, met, GROWTH};
use crate::measure::{self, Line, Rows, Times};
use crate::parts::{growth_of_shapes, mean_of_families, Growth, Part, Ratio};
use crate::plain::Verdict;
use crate::{clock, library, plain, small};

pub fn print() {
    let (games, strings) = (2000, 2000);
    measure::check_drawn(games, strings);
    let lines: Vec<Line> = families::solving().into_iter().map(Line::of).collect();
    let mut growth = growth_of_shapes(&lines);
    growth.extend([2, 4, 8].map(growth_of_drawn));
    println!("Beforehand the library and the plain solver agreed on {games} drawn games and {strings} damaged strings.\n");
    goals::print(&lines, &growth);
    ratios_table(&lines);
    growth_table(&growth);
    solving_table(&lines);
    decoding_table();
    exchange_table();
}

/// The tables of one family alone.
pub fn print_family(family: &str) {
    let cases = families::solving().into_iter().filter(|case| case.family == family);
    let lines: Vec<Line> = cases.map(Line::of).collect();
    ratios_table(&lines);
    growth_table(&growth_of_shapes(&lines));
    solving_table(&lines);
}

fn solving_table(lines: &[Line]) {
    println!("### Solving\n\nNanoseconds for one call.\n");
    println!(
        "| family | game | verdict | splits | rounds | moves handled | moves searched | verified | plain | attractor \
         | verified / plain | verified / attractor |"
    );
    println!("|---|---|---|--:|--:|--:|--:|--:|--:|--:|--:|--:|");
    lines.iter().for_each(solving_line);
    println!();
}

fn solving_line(line: &Line) {
    let (times, count) = (&line.times, &line.count);
    println!(
        "| {} | {} | {} | {} | {} | {} | {} | {:.0} | {:.0} | {:.0} | {:.2} | {:.2} |",
        line.case.family,
        line.case.title(),
        line.word(),
        line.splits(),
        count.rounds,
        count.handled,
        count.searched,
        times.verified,
        times.plain,
        times.attractor,
        times.over_plain(),
        times.over_attractor(),
    );
}

/// How the time grows from 256 to 512 states: of each shape that grows, and of drawn games taken together.
fn growth_table(growth: &[Growth]) {
    println!("### Growth\n");
    println!("The verified time at 512 states over that at 256, of each shape that grows, and of drawn games together.\n");
    println!("| shape | splits at 256 | splits at 512 | verified at 256 | verified at 512 | growth | at most | met |");
    println!("|---|--:|--:|--:|--:|--:|--:|---|");
    growth.iter().for_each(growth_line);
    println!();
}

fn growth_line(growth: &Growth) {
    let (splits, times, at_most) = (growth.splits, growth.times, GROWTH[growth.splits_grow() as usize]);
    println!(
        "| {} | {:.0} | {:.0} | {:.0} | {:.0} | {:.2} | {at_most} | {} |",
        growth.shape,
        splits[0],
        splits[1],
        times[0],
        times[1],
        growth.factor(),
        met(growth.factor(), at_most),
    );
}

/// Sixteen drawn games of each size, timed together.
fn growth_of_drawn(degree: usize) -> Growth {
    let measured = [256, 512].map(|states| {
        let files: Vec<Vec<u8>> = (0..16).map(|seed| families::drawn(states, degree, seed).file()).collect();
        let splits: f64 = files.iter().map(|file| measure::splits(measure::check(file, ALL).0) as f64).sum();
        let games = files.len() as f64;
        (splits / games, measure::time(&files, ALL).verified / games)
    });
    Growth {
        shape: format!("drawn, {degree} moves each, mean of 16 games"),
        splits: measured.map(|(splits, _)| splits),
        times: measured.map(|(_, time)| time),
    }
}

/// Geometric mean and worst of both ratios, by family and over all.
fn ratios_table(lines: &[Line]) {
    println!("### Ratios\n");
    println!("| family | games | verified / plain, geometric mean | worst | verified / attractor, geometric mean | worst |");
    println!("|---|--:|--:|--:|--:|--:|");
    let (plain, attractor): (Ratio, Ratio) = (Times::over_plain, Times::over_attractor);
    let all = Part::all(lines);
    for part in Part::families(lines).iter().chain([&all]) {
        println!(
            "| {} | {} | {:.2} | {:.2} | {:.2} | {:.2} |",
            part.name,
            part.lines.len(),
            part.mean(plain),
            plain(&part.worst(plain).times),
            part.mean(attractor),
            attractor(&part.worst(attractor).times),
        );
    }
    let of_families = |ratio| mean_of_families(lines, ratio);
    println!("| mean of the families' means | | {:.2} | | {:.2} | |\n", of_families(plain), of_families(attractor));
}

/// The library has no call for decoding alone: the largest file with the least to solve, and one that the last test
/// refuses.
fn decoding_table() {
    println!("### Decoding the largest file, 36,874 bytes\n");
    println!("| file | verified | plain | verified / plain |");
    println!("|---|--:|--:|--:|");
    let accepted = ("accepted, one pass for each row", families::largest(), Verdict::Yes(0, 0));
    let refused = ("refused by the last test", families::refused_last(), Verdict::Refused(11));
    for (name, game, verdict) in [accepted, refused] {
        let file = game.file();
        assert_eq!(verdict, measure::check(&file, ALL).0);
        let times = measure::time(&[file], ALL);
        println!("| {name} | {:.0} | {:.0} | {:.2} |", times.verified, times.plain, times.over_plain());
    }
    println!();
}

fn exchange_table() {
    println!("### Exchanging\n");
    println!("| file | verified | plain, byte by byte | verified / plain | plain, copied and patched | verified / that |");
    println!("|---|--:|--:|--:|--:|--:|");
    for (name, game) in [("largest, 36,874 bytes", families::largest()), ("P1, 106 bytes", small::m())] {
        let file = game.file();
        let mut out = vec![0xee; file.len() + 64];
        let mut plain_out = out.clone();
        assert_eq!(library::exchange(&file, &mut out), plain::exchange(&file, &mut plain_out));
        assert!(out == plain_out && out[..file.len()] == game.exchanged().file());
        plain_out.fill(0xee);
        assert_eq!(Ok(file.len()), plain::exchange_patched(&file, &mut plain_out));
        assert!(out == plain_out);
        let [verified, plain, patched] = exchange_times(&file, &mut out);
        let (over_plain, over_patched) = (verified / plain, verified / patched);
        println!("| {name} | {verified:.0} | {plain:.0} | {over_plain:.2} | {patched:.0} | {over_patched:.2} |");
    }
    println!();
}

fn exchange_times(file: &[u8], out: &mut [u8]) -> [f64; 3] {
    let out = std::cell::RefCell::new(out);
    let times = clock::medians(&mut [
        &mut || _ = black_box(library::exchange(black_box(file), &mut out.borrow_mut()[..])),
        &mut || _ = black_box(plain::exchange(black_box(file), &mut out.borrow_mut()[..])),
        &mut || _ = black_box(plain::exchange_patched(black_box(file), &mut out.borrow_mut()[..])),
    ]);
    [times[0], times[1], times[2]]
}

/// Calls of the library for the case of this number, to be watched by other tools.
pub fn repeat(number: usize, times: usize) {
    let case = families::solving().swap_remove(number);
    let (file, mut rows) = (case.game.file(), Rows::new());
    for _ in 0..times {
        _ = black_box(library::solve(black_box(&file), case.allowance, rows.lend()));
    }
}
