//! The editions of byte 0 that a board can have.

use crate::constants::{EDITION_1, EDITION_2};
use std::error::Error;
use std::fmt;

/// The edition of byte 0 that a board goes by. The two differ in bit 7 of that byte, which later revisions of Base take
/// into the format field.
///
/// A packet whose bit 7 is 0 is answered alike under both, and the empty packet too; so is whatever a
/// [`Request`](crate::Request) writes. A switch has no edition: [`route`](crate::route) ignores bit 7, and lets it through.
///
/// There is no default. Which edition a board has is for its host to say.
///
/// ```
/// use thawribbon::{Board, Description, Edition, NO_MARKS, NotDone, Refusal, SPACE, Space, TYPE0_READ};
///
/// let (mut ordinary, mut trusted, rules) = ([0x51; SPACE], [0x72; SPACE], [0xFF; SPACE]);
/// let mut board = Board::fresh(
///     Description { function: 0, a: 0x104, b: 0x00C, edition: Edition::One },
///     Space { bytes: &mut ordinary, rules: &rules, marks: &NO_MARKS },
///     Space { bytes: &mut trusted, rules: &rules, marks: &NO_MARKS },
/// );
///
/// // A Type 0 read whose byte 0 has bit 7 set.
/// let read = [TYPE0_READ | 0x80, 0, 0, 1, 1, 0, 8, 0x0F, 0x05, 0x18, 0, 4];
/// assert_eq!(board.serve(&read)?.data(), Some([0x51; 4]));
/// board.description.edition = Edition::Two;
/// assert_eq!(board.serve(&read), Err(NotDone::Refused(Refusal::UnknownType)));
/// # Ok::<(), NotDone>(())
/// ```
///
/// From a number, such as one that stands in a file:
///
/// ```
/// use thawribbon::Edition;
///
/// assert_eq!(Edition::try_from(2), Ok(Edition::Two));
/// assert_eq!(Edition::try_from(257).unwrap_err().to_string(), "257 is no edition of byte 0: there are 1 and 2");
/// ```
#[derive(Clone, Copy, Debug, PartialEq, Eq, Hash)]
#[repr(u32)]
pub enum Edition {
    /// Edition 1: bit 7 is reserved, and ignored. Every version before 0.10.0 did this.
    One = EDITION_1,
    /// Edition 2: bit 7 belongs to the format field. A packet of 12 bytes or more that has it set is refused with 4,
    /// [`Refusal::UnknownType`](crate::Refusal::UnknownType), and nothing changes.
    Two = EDITION_2,
}

impl Edition {
    /// The number, 1 or 2, as [`raw::Description`](crate::raw::Description) has it.
    ///
    /// ```
    /// use thawribbon::Edition;
    ///
    /// assert_eq!((Edition::One.number(), Edition::Two.number()), (1, 2));
    /// ```
    #[must_use]
    #[inline]
    pub const fn number(self) -> u32 {
        self as u32
    }
}

/// `edition 1` or `edition 2`.
impl fmt::Display for Edition {
    fn fmt(&self, formatter: &mut fmt::Formatter<'_>) -> fmt::Result {
        write!(formatter, "edition {}", self.number())
    }
}

impl From<Edition> for u32 {
    #[inline]
    fn from(edition: Edition) -> u32 {
        edition.number()
    }
}

/// Only 1 and 2 are editions. A number of more bits than 32 does not come here: it has to be made a `u32` first, by
/// `try_from` and not by `as`, which cuts it.
impl TryFrom<u32> for Edition {
    type Error = UnknownEdition;

    #[inline]
    fn try_from(number: u32) -> Result<Self, UnknownEdition> {
        match number {
            EDITION_1 => Ok(Edition::One),
            EDITION_2 => Ok(Edition::Two),
            _ => Err(UnknownEdition { number }),
        }
    }
}

/// A number that is no edition. In [`raw`](crate::raw) it can be given to a board, which answers 1 to every packet then.
#[derive(Clone, Copy, Debug, PartialEq, Eq, Hash)]
pub struct UnknownEdition {
    number: u32,
}

impl UnknownEdition {
    /// The number.
    #[must_use]
    pub const fn number(self) -> u32 {
        self.number
    }
}

impl fmt::Display for UnknownEdition {
    fn fmt(&self, formatter: &mut fmt::Formatter<'_>) -> fmt::Result {
        write!(
            formatter,
            "{} is no edition of byte 0: there are {EDITION_1} and {EDITION_2}",
            self.number
        )
    }
}

impl Error for UnknownEdition {}

#[cfg(test)]
mod tests {
    use super::{Edition, UnknownEdition};
    use std::collections::HashSet;

    /// What is fixed is there when a program is compiled.
    const NUMBERS: [u32; 2] = [Edition::One.number(), Edition::Two.number()];

    #[test]
    fn each_edition_is_its_number() {
        for (edition, number) in [Edition::One, Edition::Two].into_iter().zip([1, 2]) {
            assert_eq!(Edition::try_from(number), Ok(edition));
            assert_eq!((edition.number(), u32::from(edition)), (number, number));
            assert_eq!(edition.to_string(), format!("edition {number}"));
        }
        assert_eq!(NUMBERS, [1, 2]);
        assert_eq!(format!("{:?}", [Edition::One, Edition::Two]), "[One, Two]");
        assert_eq!(HashSet::from([Edition::One, Edition::Two, Edition::One]).len(), 2);
    }

    /// No bit of a number is left out: not those above a byte, and not those above 16 bits.
    #[test]
    fn no_other_number_is_an_edition() {
        let with_a_bit_more = (2..u32::BITS).flat_map(|bit| [0, 1, 2, 3].map(|low| 1 << bit | low));
        for number in [0, 3, u32::MAX].into_iter().chain(3..70_000).chain(with_a_bit_more) {
            let unknown = Edition::try_from(number).expect_err("no edition");
            assert_eq!(unknown, UnknownEdition { number });
            assert_eq!(unknown.number(), number);
        }
    }

    #[test]
    fn a_number_that_is_none_is_an_error_that_says_so() {
        let error: Box<dyn std::error::Error + Send + Sync> = UnknownEdition { number: 0 }.into();
        assert_eq!(error.to_string(), "0 is no edition of byte 0: there are 1 and 2");
    }
}
