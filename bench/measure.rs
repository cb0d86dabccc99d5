//! Holds the contenders against each other and times them in turns.

use crate::black_box::black_box;
use crate::families::Case;
use crate::plain::{Verdict, MAX_STATES};
use crate::random::Random;
use crate::watches::Count;
use crate::{attractor, clock, damage, families, library, plain, shapes};

/// Three lent rows, filled before.
pub struct Rows([Vec<u16>; 3]);

impl Rows {
    pub fn new() -> Rows {
        Rows([0xabcd, 0x1234, 0x5678].map(|filling| vec![filling; MAX_STATES]))
    }

    pub fn lend(&mut self) -> [&mut [u16]; 3] {
        let [marks, blocks, moves] = &mut self.0;
        [marks, blocks, moves]
    }

    /// The rows that a solver without blocks writes.
    pub fn lend_two(&mut self) -> [&mut [u16]; 2] {
        let [marks, _, moves] = &mut self.0;
        [marks, moves]
    }
}

/// Sees to it that both solvers answer alike and leave the same rows, and that the attractor agrees with them.
pub fn check(file: &[u8], allowance: u16) -> (Verdict, Count) {
    let (mut rows, mut plain_rows, mut count) = (Rows::new(), Rows::new(), Count::default());
    let verdict = library::solve(file, allowance, rows.lend());
    assert_eq!(verdict, plain::solve_watched(file, allowance, plain_rows.lend(), &mut count));
    assert!(rows.0 == plain_rows.0);
    check_attractor(file, verdict, &rows);
    (verdict, count)
}

/// The attractor gives the same verdict, if there is one, and agrees with every mark that is not open.
fn check_attractor(file: &[u8], verdict: Verdict, rows: &Rows) {
    let mut own_rows = Rows::new();
    let own = attractor::solve(file, own_rows.lend_two());
    match verdict {
        Verdict::Refused(_) => assert_eq!(own, verdict),
        Verdict::Yes(..) => assert!(matches!(own, Verdict::Yes(..))),
        Verdict::No(_) => assert!(matches!(own, Verdict::No(_))),
        Verdict::Open(_) => {}
    }
    assert!(rows.0[0].iter().zip(&own_rows.0[0]).all(|(mark, own)| *mark == 1 || mark == own));
}

/// The same for drawn games with drawn allowances and for damaged strings, and the exchange of each.
pub fn check_drawn(games: usize, strings: usize) {
    let mut random = Random::new(11);
    let check_both = |file: &[u8], allowance: u16| {
        check(file, allowance);
        let (mut out, mut plain_out) = (vec![0xee; 4000], vec![0xee; 4000]);
        assert_eq!(library::exchange(file, &mut out), plain::exchange(file, &mut plain_out));
        assert!(out == plain_out);
    };
    let mut agreed = 0;
    while agreed < games {
        let game = shapes::game(&mut random);
        if game.states() <= 160 {
            check_both(&game.file(), shapes::allowance(&game, &mut random));
            agreed += 1;
        }
    }
    for _ in 0..strings {
        check_both(&damage::string(&mut random), families::ALL);
    }
}

/// Nanoseconds for one call of each contender.
#[derive(Clone, Copy)]
pub struct Times {
    pub verified: f64,
    pub plain: f64,
    pub attractor: f64,
}

impl Times {
    pub fn over_plain(&self) -> f64 {
        self.verified / self.plain
    }

    pub fn over_attractor(&self) -> f64 {
        self.verified / self.attractor
    }
}

/// The times for solving all of these files, one after the other.
pub fn time(files: &[Vec<u8>], allowance: u16) -> Times {
    let rows = std::cell::RefCell::new(Rows::new());
    let times = clock::medians(&mut [
        &mut || {
            for file in files {
                black_box(library::solve(black_box(file), allowance, rows.borrow_mut().lend()));
            }
        },
        &mut || {
            for file in files {
                black_box(plain::solve(black_box(file), allowance, rows.borrow_mut().lend()));
            }
        },
        &mut || {
            for file in files {
                black_box(attractor::solve(black_box(file), rows.borrow_mut().lend_two()));
            }
        },
    ]);
    Times { verified: times[0], plain: times[1], attractor: times[2] }
}

/// What was found of one case.
pub struct Line {
    pub case: Case,
    pub verdict: Verdict,
    pub count: Count,
    pub times: Times,
}

impl Line {
    pub fn of(case: Case) -> Line {
        let file = case.game.file();
        let (verdict, count) = check(&file, case.allowance);
        let times = time(&[file], case.allowance);
        Line { verdict, count, times, case }
    }

    pub fn splits(&self) -> u16 {
        splits(self.verdict)
    }

    pub fn word(&self) -> &'static str {
        match self.verdict {
            Verdict::Yes(..) => "YES",
            Verdict::No(_) => "NO",
            Verdict::Open(_) => "OPEN",
            Verdict::Refused(_) => "REFUSED",
        }
    }
}

pub fn splits(verdict: Verdict) -> u16 {
    match verdict {
        Verdict::Yes(_, splits) | Verdict::No(splits) | Verdict::Open(splits) => splits,
        Verdict::Refused(refusal) => panic!("refusal {refusal}"),
    }
}
