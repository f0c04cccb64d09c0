//! Words at 100h that hardly keep the extended list from being empty, and the one that does not.

use super::cursor::Cursor;
use super::random::Random;

/// The words of one bit.
const BITS: usize = 32;
/// The words with ID 0000h and a pointer of 0 to 3, by every version. The first is the zero word.
const FIELDS: usize = 64;

/// Makes words, one after the other.
pub struct FirstWords {
    turn: Cursor,
}

impl FirstWords {
    pub const fn new() -> Self {
        Self {
            turn: Cursor::new(BITS + FIELDS),
        }
    }

    /// The next word in turn, or any of them.
    pub const fn draw(&mut self, in_turn: bool, random: &mut Random) -> u32 {
        let place = self.turn.draw(in_turn, random);
        if place < BITS {
            1 << place
        } else {
            ((place - BITS) as u32) << 16
        }
    }
}

#[cfg(test)]
mod tests {
    use super::{BITS, FIELDS, FirstWords};
    use crate::generate::Random;

    #[test]
    fn every_bit_alone_and_all_that_leads_nowhere() {
        let (mut words, mut random) = (FirstWords::new(), Random::new(1));
        let drawn: Vec<u32> = (0..BITS + FIELDS).map(|_| words.draw(true, &mut random)).collect();
        assert!((0..32).all(|bit| drawn.contains(&(1 << bit))));
        for version in 0..16 {
            assert!((0..4).all(|pointer| drawn.contains(&(pointer << 20 | version << 16))));
        }
    }
}
