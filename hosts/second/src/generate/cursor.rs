//! A cursor that goes round a range, so that each of many values is tried equally often.

use super::random::Random;

/// Goes from 0 to a bound, again and again.
pub struct Cursor {
    next: usize,
    bound: usize,
}

impl Cursor {
    pub const fn new(bound: usize) -> Self {
        Self { next: 0, bound }
    }

    /// The next number below the bound.
    pub const fn sweep(&mut self) -> usize {
        let value = self.next;
        self.next = if value + 1 == self.bound { 0 } else { value + 1 };
        value
    }

    /// The next number in turn, or any number below the bound: so a call that cannot count leaves no gap in the turn.
    pub const fn draw(&mut self, in_turn: bool, random: &mut Random) -> usize {
        if in_turn {
            self.sweep()
        } else {
            random.below(self.bound)
        }
    }
}
