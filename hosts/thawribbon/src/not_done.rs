//! Why a packet's access was not done.

use crate::completion::Completion;
use crate::refusal::Refusal;
use std::error::Error;
use std::fmt;

/// Why a packet's access was not done. Nothing has changed in the board.
#[derive(Clone, Copy, Debug, PartialEq, Eq, Hash)]
pub enum NotDone {
    /// The packet was served, and the answer is Unsupported Request. Its completion goes back to the requester.
    Unsupported(Completion),
    /// The packet or the board's description was refused. There is no completion.
    Refused(Refusal),
}

impl NotDone {
    /// The completion that goes back to the requester, if there is one.
    #[must_use]
    pub fn completion(&self) -> Option<&Completion> {
        match self {
            NotDone::Unsupported(completion) => Some(completion),
            NotDone::Refused(_) => None,
        }
    }
}

impl fmt::Display for NotDone {
    fn fmt(&self, formatter: &mut fmt::Formatter<'_>) -> fmt::Result {
        match self {
            NotDone::Unsupported(completion) => write!(
                formatter,
                "Unsupported Request: the access was not done (requester {}, tag {:02X}h, completer {})",
                completion.requester(),
                completion.tag(),
                completion.completer()
            ),
            NotDone::Refused(refusal) => refusal.fmt(formatter),
        }
    }
}

impl Error for NotDone {}

/// So that `?` serves packets and reads lists in one function.
impl From<Refusal> for NotDone {
    fn from(refusal: Refusal) -> Self {
        NotDone::Refused(refusal)
    }
}
