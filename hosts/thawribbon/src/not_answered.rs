//! Why a request has no answer that says that it was done.

use crate::completion::Completion;
use crate::not_done::NotDone;
use crate::refusal::Refusal;
use std::error::Error;
use std::fmt;

/// Why a request has no answer that says that it was done.
#[derive(Clone, Copy, Debug, PartialEq, Eq, Hash)]
pub enum NotAnswered {
    /// The answer is Unsupported Request: the access was not done, and nothing has changed.
    Unsupported(Completion),
    /// The completion is another request's: it has another requester or tag, or data for a write, or none for a read that
    /// was done.
    Other(Completion),
    /// The parts are no request, a board refused it, or the bytes are no completion.
    Refused(Refusal),
}

impl NotAnswered {
    /// The completion that came, if there is one.
    #[must_use]
    pub fn completion(&self) -> Option<&Completion> {
        match self {
            NotAnswered::Unsupported(completion) | NotAnswered::Other(completion) => Some(completion),
            NotAnswered::Refused(_) => None,
        }
    }
}

impl fmt::Display for NotAnswered {
    fn fmt(&self, formatter: &mut fmt::Formatter<'_>) -> fmt::Result {
        match *self {
            NotAnswered::Unsupported(completion) => NotDone::Unsupported(completion).fmt(formatter),
            NotAnswered::Other(completion) => write!(
                formatter,
                "the completion is another request's (requester {}, tag {:02X}h, completer {})",
                completion.requester(),
                completion.tag(),
                completion.completer()
            ),
            NotAnswered::Refused(refusal) => refusal.fmt(formatter),
        }
    }
}

impl Error for NotAnswered {}

/// So that `?` builds requests and reads completions in one function.
impl From<Refusal> for NotAnswered {
    fn from(refusal: Refusal) -> Self {
        NotAnswered::Refused(refusal)
    }
}

/// So that `?` builds requests, has a board serve them, and reads completions in one function.
impl From<NotDone> for NotAnswered {
    fn from(not_done: NotDone) -> Self {
        match not_done {
            NotDone::Unsupported(completion) => NotAnswered::Unsupported(completion),
            NotDone::Refused(refusal) => NotAnswered::Refused(refusal),
        }
    }
}
