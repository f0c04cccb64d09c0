//! Times several sides by turns, and gives medians and the quartiles of the ratios between them.
//!
//! A round times one batch of each side, one after the other, so that what disturbs the machine for longer than a
//! round disturbs all sides alike. Every batch follows one pass that is not timed and brings inputs into the caches.
//! Turns take place at eight depths of the stack, so that no side is lucky or unlucky in how what it puts on the stack
//! lies in cache lines and pages.

use std::hint::black_box;
use std::time::{Duration, Instant};

/// A fixed number of calls of a side.
pub type Pass = Box<dyn FnMut()>;

/// How long is measured: every contest has so many turns of so many rounds, with batches of about this time.
#[derive(Clone, Copy, Debug, PartialEq, Eq)]
pub struct Plan {
    pub turns: usize,
    pub rounds: usize,
    pub batch: Duration,
}

/// Sides that are timed by turns.
pub struct Contest {
    calls_of_a_pass: usize,
    sides: Vec<Side>,
}

/// A side, how many of its passes fill a batch, and its nanoseconds per pass in each round.
struct Side {
    pass: Pass,
    passes_of_a_batch: usize,
    samples: Vec<f64>,
}

/// The lower quartile, the median and the upper quartile.
#[derive(Clone, Copy, Debug, PartialEq)]
pub struct Quartiles {
    pub lower: f64,
    pub median: f64,
    pub upper: f64,
}

/// Measures all contests. Every turn goes through all of them, so that a slow minute is shared out.
pub fn run(plan: Plan, contests: &mut [&mut Contest]) {
    for contest in contests.iter_mut() {
        contest.warm_up(plan.batch);
    }
    for turn in 0..plan.turns {
        at_depth(turn, &mut || {
            contests.iter_mut().for_each(|contest| contest.turn(plan.rounds))
        });
    }
}

/// Does some work at one of eight depths of the stack: all multiples of 16 in a cache line, and all over a page.
fn at_depth(turn: usize, work: &mut dyn FnMut()) {
    match turn % 8 {
        0 => deeper::<16>(work),
        1 => deeper::<544>(work),
        2 => deeper::<1072>(work),
        3 => deeper::<1600>(work),
        4 => deeper::<2128>(work),
        5 => deeper::<2656>(work),
        6 => deeper::<3184>(work),
        _ => deeper::<3712>(work),
    }
}

/// Does some work so many bytes deeper in the stack.
#[inline(never)]
fn deeper<const BYTES: usize>(work: &mut dyn FnMut()) {
    let mut padding = [0_u8; BYTES];
    black_box(&mut padding);
    work();
    black_box(&mut padding);
}

impl Contest {
    /// Every pass makes the same number of calls.
    pub fn new(calls_of_a_pass: usize, passes: Vec<Pass>) -> Self {
        Self {
            calls_of_a_pass,
            sides: passes.into_iter().map(Side::new).collect(),
        }
    }

    fn warm_up(&mut self, batch: Duration) {
        self.sides.iter_mut().for_each(|side| side.warm_up(batch));
    }

    fn turn(&mut self, rounds: usize) {
        for _ in 0..rounds {
            self.sides.iter_mut().for_each(Side::round);
        }
    }

    /// The median over the rounds of a side's nanoseconds per call.
    pub fn median(&self, side: usize) -> f64 {
        quartiles(self.sides[side].samples.clone()).median / self.calls_of_a_pass as f64
    }

    /// The quartiles over the rounds of the first side's time divided by another side's time in the same round.
    pub fn ratios(&self, side: usize) -> Quartiles {
        quartiles(
            self.sides[0]
                .samples
                .iter()
                .zip(&self.sides[side].samples)
                .map(|(first, other)| first / other)
                .collect(),
        )
    }
}

impl Side {
    fn new(pass: Pass) -> Self {
        Self {
            pass,
            passes_of_a_batch: 1,
            samples: Vec::new(),
        }
    }

    /// Runs for about four batches, and sets how many passes fill one.
    fn warm_up(&mut self, batch: Duration) {
        let start = Instant::now();
        let mut passes = 0_usize;
        while start.elapsed() < batch * 4 {
            (self.pass)();
            passes += 1;
        }
        self.passes_of_a_batch = passes.div_ceil(4);
    }

    /// Times one batch, after a pass that is not timed.
    fn round(&mut self) {
        (self.pass)();
        let start = Instant::now();
        for _ in 0..self.passes_of_a_batch {
            (self.pass)();
        }
        let elapsed = start.elapsed().as_nanos() as f64;
        self.samples.push(elapsed / self.passes_of_a_batch as f64);
    }
}

/// The quartiles of at least one number.
fn quartiles(mut numbers: Vec<f64>) -> Quartiles {
    numbers.sort_by(f64::total_cmp);
    let at = |part: usize| numbers[(numbers.len() - 1) * part / 4];
    Quartiles {
        lower: at(1),
        median: at(2),
        upper: at(3),
    }
}

#[cfg(test)]
mod tests {
    use super::{Quartiles, quartiles};

    #[test]
    fn quartiles_of_few_numbers() {
        assert_eq!(
            quartiles(vec![5.0, 1.0, 4.0, 2.0, 3.0]),
            Quartiles {
                lower: 2.0,
                median: 3.0,
                upper: 4.0
            }
        );
        assert_eq!(
            quartiles(vec![7.0]),
            Quartiles {
                lower: 7.0,
                median: 7.0,
                upper: 7.0
            }
        );
    }
}
