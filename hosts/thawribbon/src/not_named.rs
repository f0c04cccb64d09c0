//! Why a Dual-BDF record is not known to name a board's alternate.

use crate::records::Alternate;
use crate::refusal::Refusal;
use std::error::Error;
use std::fmt;

/// Why a Dual-BDF record is not known to name the alternate of its board. [`Pair::dual_bdf`](crate::Pair::dual_bdf) says so.
#[derive(Clone, Copy, Debug, PartialEq, Eq, Hash)]
pub enum NotNamed {
    /// The record has the alternate's function. Neither function of the board has captured a device, so nothing says whether
    /// the record's is this board's.
    Uncaptured(Alternate),
    /// The record has another function, or another device than one of the two functions has captured.
    Other(Alternate),
    /// There is no such record.
    Refused(Refusal),
}

impl NotNamed {
    /// What the record says, if there is one.
    #[must_use]
    pub const fn record(self) -> Option<Alternate> {
        match self {
            NotNamed::Uncaptured(record) | NotNamed::Other(record) => Some(record),
            NotNamed::Refused(_) => None,
        }
    }
}

/// In the words that `thawribbon_named_text` of the C header has, with what the record says.
impl fmt::Display for NotNamed {
    fn fmt(&self, formatter: &mut fmt::Formatter<'_>) -> fmt::Result {
        let (words, Alternate { function, device }) = match *self {
            NotNamed::Uncaptured(record) => (
                "the record has the alternate's function, and neither function has captured a device to compare with its own",
                record,
            ),
            NotNamed::Other(record) => (
                "the record has another function than the alternate's, or another device than was captured",
                record,
            ),
            NotNamed::Refused(refusal) => return refusal.fmt(formatter),
        };
        write!(formatter, "{words} (function {function}, device {device})")
    }
}

impl Error for NotNamed {}

/// So that `?` reads records and asks what they name in one function.
impl From<Refusal> for NotNamed {
    fn from(refusal: Refusal) -> Self {
        NotNamed::Refused(refusal)
    }
}
