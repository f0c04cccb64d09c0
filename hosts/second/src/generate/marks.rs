//! The marks of a space, the bits that are cleared by writing 1: such as go with its rules, and such as do not.

use super::board::SPACE_BYTES;
use super::case::ServeCase;
use super::cursor::Cursor;
use super::random::Random;
use crate::twin::Twin;

/// The longest buffer of marks that is lent: as long as two.
pub const LONGEST_MARKS: usize = 2 * SPACE_BYTES;

/// Marks that go with some rules: no bit at all, every bit that may not be written, or some of these. What lies around
/// the marks is random.
pub fn fill_marks(marks: &mut Twin<u8>, rules: &[u8], random: &mut Random) {
    marks.refill(|bytes| random.fill(bytes));
    marks.lend(SPACE_BYTES);
    marks.refill_lent(|bytes| {
        match random.weighted(&[8, 20, 72]) {
            0 => bytes.fill(0x00),
            1 => bytes.fill(0xFF),
            _ => mix_words(bytes, random),
        }
        for (mark, rule) in bytes.iter_mut().zip(rules) {
            *mark &= !rule;
        }
    });
}

/// Words of all three sorts: no bit is marked, all are, or some.
fn mix_words(bytes: &mut [u8], random: &mut Random) {
    for word in bytes.chunks_exact_mut(4) {
        match random.below(10) {
            0 => word.fill(0x00),
            1 | 2 => word.fill(0xFF),
            _ => {}
        }
    }
}

/// How bits of one space are marked both as writable and as cleared by writing 1.
#[derive(Clone, Copy)]
pub enum Doubling {
    /// These bits of one byte.
    Bits { byte: usize, mask: u8 },
    /// All that may be written: the marks are as the rules.
    Alike,
    /// All that may be written: every bit of the space is marked.
    All,
}

impl Doubling {
    /// Marks the bits doubly, in rules and marks that are lent as a whole.
    pub fn put(self, rules: &mut Twin<u8>, marks: &mut Twin<u8>) {
        match self {
            Self::Bits { byte, mask } => {
                for bytes in [rules, marks] {
                    let with_mask = bytes.ours()[byte] | mask;
                    bytes.set(byte, &[with_mask]);
                }
            }
            Self::Alike => marks.set(0, rules.ours()),
            Self::All => marks.set(0, &[0xFF; SPACE_BYTES]),
        }
    }
}

/// Chooses bits of one space to be marked doubly. Each bit of each byte has its turn where the call has no other fault.
pub struct DoublingMaker {
    bits: Cursor,
}

impl DoublingMaker {
    pub const fn new() -> Self {
        Self {
            bits: Cursor::new(8 * SPACE_BYTES),
        }
    }

    /// Mostly one bit: the next in turn, or one at an edge or where the call has to do with it.
    pub fn draw(&mut self, in_turn: bool, case: &ServeCase, random: &mut Random) -> Doubling {
        match random.weighted(&[70, 20, 5, 3, 2]) {
            0 => bit_in_turn(self.bits.draw(in_turn, random)),
            1 => Doubling::Bits {
                byte: near_byte(case, random),
                mask: 1 << random.below(8),
            },
            2 => Doubling::Bits {
                byte: random.below(SPACE_BYTES),
                mask: random.byte() | 1 << random.below(8),
            },
            3 => Doubling::Alike,
            _ => Doubling::All,
        }
    }
}

/// One bit of one byte. From one turn to the next it is another byte and another bit.
const fn bit_in_turn(turn: usize) -> Doubling {
    let (round, byte) = (turn / SPACE_BYTES, turn % SPACE_BYTES);
    Doubling::Bits {
        byte,
        mask: 1 << ((byte + byte / 4 + round) % 8),
    }
}

/// The first byte or the last; one of the word that is asked for, or of a word beside it; one at A, behind it or at B.
fn near_byte(case: &ServeCase, random: &mut Random) -> usize {
    let asked = case.packet.offset();
    let (a, b) = (case.description.a as usize, case.description.b as usize);
    let word = match random.below(8) {
        0 => return 0,
        1 => return SPACE_BYTES - 1,
        2 | 3 => asked,
        4 => asked + random.pick(&[4, SPACE_BYTES - 4]),
        5 => a + random.pick(&[0, 4]),
        6 => a,
        _ => b,
    };
    word % SPACE_BYTES / 4 * 4 + random.below(4)
}

#[cfg(test)]
mod tests {
    use super::{Doubling, SPACE_BYTES, bit_in_turn};

    #[test]
    fn each_bit_of_each_byte_has_its_turn() {
        let mut met = [0_u8; SPACE_BYTES];
        for turn in 0..8 * SPACE_BYTES {
            if let Doubling::Bits { byte, mask } = bit_in_turn(turn) {
                met[byte] |= mask;
            }
        }
        assert_eq!(met, [0xFF; SPACE_BYTES]);
    }
}
