//! The verified library against plain Rust. `bench` prints the tables, `bench family NAME` those of one family, `bench
//! search` looks for the games that take longest as a multiple of the solver without blocks, `bench stack` finds how much
//! stack one call takes, `bench repeat CASE TIMES` makes calls of the library for a profiler.

mod attractor;
mod black_box;
mod climb;
mod clock;
#[path = "../tests/outside/damage.rs"]
#[allow(dead_code)]
mod damage;
mod families;
#[path = "../tests/outside/game.rs"]
#[allow(dead_code)]
mod game;
mod goals;
mod library;
mod measure;
mod parts;
mod peeled;
mod plain;
#[path = "../tests/outside/random.rs"]
#[allow(dead_code)]
mod random;
mod search;
#[path = "../tests/outside/shapes.rs"]
#[allow(dead_code)]
mod shapes;
mod small;
mod stack;
mod tables;
mod watches;

fn main() {
    let words: Vec<String> = std::env::args().skip(1).collect();
    let words: Vec<&str> = words.iter().map(|word| word.as_str()).collect();
    match words[..] {
        [] => tables::print(),
        ["family", name] => tables::print_family(name),
        ["search"] => search::print(),
        ["stack"] => stack::print(),
        ["repeat", case, times] => tables::repeat(case.parse().unwrap(), times.parse().unwrap()),
        _ => panic!("usage: bench [family NAME | search | stack | repeat CASE TIMES]"),
    }
}
