//! Lengths of a space other than 4,096: those from 0 to 20 and from 4,090 to 4,100 in turn, and the nearest more often.
//! Marks may also be as long as those of two spaces.

use super::board::{LONGEST_SPACE, SPACE_BYTES};
use super::cursor::Cursor;
use super::marks::LONGEST_MARKS;
use super::random::Random;

/// The lengths of a space that are tried one by one.
pub const NAMED_LENGTHS: usize = 32;

/// The place of a space's length among the lengths tried one by one.
pub const fn named_length_place(length: usize) -> Option<usize> {
    match length {
        0..=20 => Some(length),
        4090..=4100 => Some(length - 4090 + 21),
        _ => None,
    }
}

/// The lengths of marks that are tried one by one.
pub const MARKS_LENGTHS: usize = NAMED_LENGTHS + 1;

/// The place of the length of marks among them.
pub const fn marks_length_place(length: usize) -> Option<usize> {
    match length {
        LONGEST_MARKS => Some(NAMED_LENGTHS),
        _ => named_length_place(length),
    }
}

/// The length at a place. Inverse of [`named_length_place`].
const fn named_length(place: usize) -> usize {
    if place <= 20 { place } else { place - 21 + 4090 }
}

/// Makes wrong lengths for one space.
pub struct WrongLengths {
    named: Cursor,
}

impl WrongLengths {
    pub const fn new() -> Self {
        Self {
            named: Cursor::new(NAMED_LENGTHS),
        }
    }

    /// A length that is not 4,096.
    pub fn draw(&mut self, random: &mut Random) -> usize {
        let any = random.within(21, 4089);
        let length = match random.weighted(&[70, 25, 5]) {
            0 => named_length(self.named.sweep()),
            1 => random.pick(&[0, 256, SPACE_BYTES / 2, SPACE_BYTES - 1, SPACE_BYTES + 1, LONGEST_SPACE]),
            _ => any,
        };
        if length == SPACE_BYTES { SPACE_BYTES - 1 } else { length }
    }

    /// A length of marks that is not 4,096.
    pub fn draw_for_marks(&mut self, random: &mut Random) -> usize {
        if random.percent(12) {
            LONGEST_MARKS
        } else {
            self.draw(random)
        }
    }
}

#[cfg(test)]
mod tests {
    use super::{NAMED_LENGTHS, named_length, named_length_place};

    #[test]
    fn places_and_lengths_go_together() {
        assert!((0..NAMED_LENGTHS).all(|place| named_length_place(named_length(place)) == Some(place)));
    }
}
