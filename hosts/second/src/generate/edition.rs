//! Editions of a board: the two that there are, and others.

use super::cursor::Cursor;
use super::random::Random;

/// The editions of a board that is well described.
pub const EDITIONS: [u32; 2] = [1, 2];

/// The low ones that are neither.
const LOW: [u32; 14] = [0, 3, 4, 5, 6, 7, 8, 9, 10, 11, 12, 13, 14, 15];
/// Such as have 1 or 2 in every byte, and the highest, as numbers with a sign and without.
const SPECIAL: [u32; 6] = [
    0x0101_0101,
    0x0202_0202,
    0x7FFF_FFFF,
    0xFFFF_FFFD,
    0xFFFF_FFFE,
    0xFFFF_FFFF,
];
/// The lowest bit of those that are set alone, and with 1 or 2.
const FIRST_BIT: usize = 4;
const BITS: usize = 32 - FIRST_BIT;

/// Editions that are neither 1 nor 2, tried one by one. Each bit above is among them alone, with 1 and with 2: in fewer
/// bits those would be right.
pub const WRONG_EDITIONS: [u32; LOW.len() + 3 * BITS + SPECIAL.len()] = {
    let mut editions = [0; LOW.len() + 3 * BITS + SPECIAL.len()];
    let mut place = 0;
    while place < editions.len() {
        let bits_place = place.saturating_sub(LOW.len());
        editions[place] = if place < LOW.len() {
            LOW[place]
        } else if bits_place < 3 * BITS {
            1 << (FIRST_BIT + bits_place / 3) | (bits_place % 3) as u32
        } else {
            SPECIAL[bits_place - 3 * BITS]
        };
        place += 1;
    }
    editions
};

/// One of the two editions.
pub fn right_edition(random: &mut Random) -> u32 {
    random.pick(&EDITIONS)
}

/// Makes editions that are neither 1 nor 2.
pub struct WrongEditions {
    named: Cursor,
}

impl WrongEditions {
    pub const fn new() -> Self {
        Self {
            named: Cursor::new(WRONG_EDITIONS.len()),
        }
    }

    /// Mostly the next in turn, else any.
    pub fn draw(&mut self, in_turn: bool, random: &mut Random) -> u32 {
        let any = random.bits() as u32;
        if random.percent(15) && !EDITIONS.contains(&any) {
            any
        } else {
            WRONG_EDITIONS[self.named.draw(in_turn, random)]
        }
    }
}

#[cfg(test)]
mod tests {
    use super::{EDITIONS, WRONG_EDITIONS};

    #[test]
    fn the_wrong_ones_are_all_wrong_and_each_is_there_once() {
        let mut sorted = WRONG_EDITIONS;
        sorted.sort_unstable();
        assert!(sorted.is_sorted_by(|lower, higher| lower < higher));
        assert!(!WRONG_EDITIONS.iter().any(|edition| EDITIONS.contains(edition)));
        for edition in [
            0,
            3,
            0x101,
            0x102,
            0x1_0001,
            0x1_0002,
            0x8000_0001,
            0x8000_0002,
            u32::MAX,
        ] {
            assert!(WRONG_EDITIONS.contains(&edition), "{edition:x}");
        }
    }
}
