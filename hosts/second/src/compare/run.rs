//! A run: so many calls by a seed, until the first difference. The same seed gives the same run.

use std::fmt;

use super::aparts::Aparts;
use super::difference::Difference;
use super::duos::Duos;
use super::entries::Entries;
use super::repeats::{KINDS, Repeats};
use super::subject::Subject;
use crate::classes::Tally;
use crate::generate::Random;

/// How often it is any of [`Entries`], and how often a board of two functions has its turn: serve_pair, reset_pair, and two
/// runs of such a board that go a step on.
const WITH_TWO_FUNCTIONS: [usize; 4] = [292, 10, 1, 4];

/// The same of a run in which nothing else is called.
const TWO_FUNCTIONS_ONLY: [usize; 4] = [0, 10, 1, 4];

/// How often it is any of these or of those, and how often packets are repeated, by the kinds of [`Repeats`]: doubled on a
/// board, on one of two functions, in circles and through a router; swapped on a board and on one of two functions; and
/// repeated after something else on either.
const WITH_REPEATS: [usize; 1 + KINDS] = [977, 4, 4, 1, 3, 3, 2, 5, 4];

/// The same of a run in which no packet is repeated, of one in which all are, and of one in which they are doubled only, with
/// nothing between.
const NO_REPEATS: [usize; 1 + KINDS] = [1, 0, 0, 0, 0, 0, 0, 0, 0];
const REPEATS_ONLY: [usize; 1 + KINDS] = [0, 4, 4, 1, 3, 3, 2, 5, 4];
const DOUBLES_ONLY: [usize; 1 + KINDS] = [0, 4, 4, 0, 0, 0, 0, 0, 0];

/// Where a run met a difference.
#[derive(Debug)]
pub struct Failure {
    pub seed: u64,
    /// The call, counted from 0.
    pub case: u64,
    pub difference: Box<Difference>,
}

impl fmt::Display for Failure {
    fn fmt(&self, formatter: &mut fmt::Formatter<'_>) -> fmt::Result {
        writeln!(formatter, "DIFFERENCE: seed {}, case {}", self.seed, self.case)?;
        write!(formatter, "{}", self.difference)
    }
}

/// Makes so many calls to the model and to a subject, and counts them. Stops at the first difference.
pub fn run(subject: &mut impl Subject, seed: u64, cases: u64) -> Result<Tally, Failure> {
    run_by(WITH_TWO_FUNCTIONS, WITH_REPEATS, subject, seed, cases)
}

/// As [`run`], with calls of a board of two functions only.
pub fn run_two_functions(subject: &mut impl Subject, seed: u64, cases: u64) -> Result<Tally, Failure> {
    run_by(TWO_FUNCTIONS_ONLY, NO_REPEATS, subject, seed, cases)
}

/// As [`run`], with packets that are repeated only.
pub fn run_repeated(subject: &mut impl Subject, seed: u64, cases: u64) -> Result<Tally, Failure> {
    run_by(WITH_TWO_FUNCTIONS, REPEATS_ONLY, subject, seed, cases)
}

/// As [`run`], with packets only that are repeated with nothing between, on boards of one function and of two.
pub fn run_doubled(subject: &mut impl Subject, seed: u64, cases: u64) -> Result<Tally, Failure> {
    run_by(WITH_TWO_FUNCTIONS, DOUBLES_ONLY, subject, seed, cases)
}

/// Boards of two functions have random numbers of their own, and so have packets that are repeated. So the other calls of a
/// seed are the same with them and without, and what caught a wrong subject still does.
fn run_by(
    two_functions: [usize; 4],
    repeats: [usize; 1 + KINDS],
    subject: &mut impl Subject,
    seed: u64,
    cases: u64,
) -> Result<Tally, Failure> {
    let (mut random, mut of_two) = (Random::new(seed), Random::new(!seed));
    let mut of_repeats = Random::new(seed ^ 0x5555_5555_5555_5555);
    let mut entries = Entries::new();
    let (mut duos, mut aparts) = (Duos::new(), Aparts::new());
    let mut repeated = Repeats::new();
    let mut tally = Tally::new();
    for case in 0..cases {
        tally.call();
        let compared = match of_repeats.weighted(&repeats) {
            0 => match of_two.weighted(&two_functions) {
                0 => entries.call(subject, &mut random, &mut tally),
                1 => duos.serve(subject, &mut of_two, &mut tally),
                2 => duos.reset(subject, &mut of_two, &mut tally),
                _ => aparts.step(subject, &mut of_two, &mut tally),
            },
            kind => repeated.call(kind - 1, subject, &mut of_repeats, &mut tally),
        };
        compared.map_err(|difference| Failure { seed, case, difference })?;
    }
    Ok(tally)
}
