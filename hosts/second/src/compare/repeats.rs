//! All that request 12/13 adds to a run: packets that are doubled, swapped, and repeated after something else.

use super::bench::Bench;
use super::betweens::Betweens;
use super::difference::Difference;
use super::double_circles::DoubleCircles;
use super::double_duos::DoubleDuos;
use super::double_onwards::DoubleOnwards;
use super::doubles::Doubles;
use super::duo_bench::DuoBench;
use super::subject::Subject;
use super::swaps::Swaps;
use crate::classes::Tally;
use crate::generate::Random;

/// How many kinds of calls there are here: doubled packets on a board, on one of two functions, in circles and through a
/// router; swapped ones on a board and on one of two functions; and packets repeated after something else on either.
pub const KINDS: usize = 8;

/// The boards of each kind, and what makes packets for them.
pub struct Repeats {
    doubles: Doubles,
    double_duos: DoubleDuos,
    double_circles: DoubleCircles,
    double_onwards: DoubleOnwards,
    swaps: Swaps<Bench>,
    swap_duos: Swaps<DuoBench>,
    betweens: Betweens<Bench>,
    between_duos: Betweens<DuoBench>,
}

impl Repeats {
    pub fn new() -> Self {
        Self {
            doubles: Doubles::new(),
            double_duos: DoubleDuos::new(),
            double_circles: DoubleCircles::new(),
            double_onwards: DoubleOnwards::new(),
            swaps: Swaps::new(),
            swap_duos: Swaps::new(),
            betweens: Betweens::new(),
            between_duos: Betweens::new(),
        }
    }

    /// One call of a kind.
    pub fn call(
        &mut self,
        kind: usize,
        subject: &mut impl Subject,
        random: &mut Random,
        tally: &mut Tally,
    ) -> Result<(), Box<Difference>> {
        match kind {
            0 => self.doubles.double(subject, random, tally),
            1 => self.double_duos.double(subject, random, tally),
            2 => self.double_circles.double(subject, random, tally),
            3 => self.double_onwards.double(subject, random, tally),
            4 => self.swaps.swap(subject, random, tally),
            5 => self.swap_duos.swap(subject, random, tally),
            6 => self.betweens.between(subject, random, tally),
            _ => self.between_duos.between(subject, random, tally),
        }
    }
}
