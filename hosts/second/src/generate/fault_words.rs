//! The words that a broken list's faults are laid at: each in turn, and the lowest and the highest more often.

use super::cursor::Cursor;
use super::random::Random;

/// Where the next fault lies, for each of three things a word can be to it.
pub struct FaultWords {
    /// The words whose pointer leads below the floor.
    pub below: FaultWord,
    /// The words whose pointer leads back.
    pub again: FaultWord,
    /// The words that it leads back to.
    pub back_to: FaultWord,
}

impl FaultWords {
    /// For a list of so many words.
    pub const fn new(words: usize) -> Self {
        Self {
            below: FaultWord::new(words),
            again: FaultWord::new(words),
            back_to: FaultWord::new(words),
        }
    }
}

/// Numbers of words, counted from the floor.
pub struct FaultWord {
    turn: Cursor,
    highest: usize,
}

impl FaultWord {
    const fn new(words: usize) -> Self {
        Self {
            turn: Cursor::new(words),
            highest: words - 1,
        }
    }

    /// The next word in turn, or any of them; now and then the lowest or the highest.
    pub const fn draw(&mut self, in_turn: bool, random: &mut Random) -> usize {
        match random.below(20) {
            0 => 0,
            1 => self.highest,
            _ => self.turn.draw(in_turn, random),
        }
    }
}

#[cfg(test)]
mod tests {
    use super::FaultWord;
    use crate::generate::Random;

    #[test]
    fn every_word_has_its_turn_and_both_ends_come_more_often() {
        let (mut words, mut random) = (FaultWord::new(48), Random::new(1));
        let mut drawn = [0; 48];
        for _ in 0..4800 {
            drawn[words.draw(true, &mut random)] += 1;
        }
        let [lowest, between @ .., highest] = drawn;
        assert!(between.iter().all(|count| (80..100).contains(count)), "{drawn:?}");
        assert!(lowest > 200 && highest > 200, "{drawn:?}");
    }
}
