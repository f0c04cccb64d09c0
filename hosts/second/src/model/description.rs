//! A board's description, and what it may hold.

use super::edition::Bit7;
use super::refusal::Refusal;
use super::space::is_word_offset;

/// The highest offset of a word.
pub(super) const LAST_WORD: usize = 0xFFC;
/// The lowest ordinary place of the Device Correlation word.
const LOWEST_A: usize = 0x104;
/// The lowest trusted place of the Device Correlation word.
const LOWEST_B: usize = 0x00C;
/// The highest function number.
pub(super) const LAST_FUNCTION: u8 = 7;
/// The highest device number.
pub(super) const LAST_DEVICE: u8 = 31;

/// A board's function number, the two places of the Device Correlation word, and the edition.
#[derive(Clone, Copy, Debug, PartialEq, Eq)]
pub struct Description {
    /// The function number, 0 to 7.
    pub function: u8,
    /// "A is the ordinary place of the Device Correlation word: a multiple of 4 from 104h to FFCh."
    pub a: u32,
    /// "B is its trusted place: a multiple of 4 from 00Ch to FFCh."
    pub b: u32,
    /// Request 9/13: "The board description gets an edition", 1 or 2.
    pub edition: u32,
}

impl Description {
    /// Refused with 1 where "a captured device is over 31, or a function number or offset is outside its range", and by
    /// request 9/13 with "any other edition". Answers what becomes of bit 7 of byte 0.
    #[inline]
    pub(super) fn check(self, kept: Option<(u8, u8)>) -> Result<Bit7, Refusal> {
        let well_described = self.function <= LAST_FUNCTION
            && is_word_offset(self.a as usize, LOWEST_A, LAST_WORD)
            && is_word_offset(self.b as usize, LOWEST_B, LAST_WORD)
            && kept.is_none_or(|(_, device)| device <= LAST_DEVICE);
        if well_described {
            Bit7::of(self.edition)
        } else {
            Err(Refusal::Outside)
        }
    }
}
