//! Why a packet does not leave a switch.

use crate::refusal::Refusal;
use std::error::Error;
use std::fmt;

/// Why a packet does not leave a switch.
#[derive(Clone, Copy, Debug, PartialEq, Eq, Hash)]
pub enum NotRouted {
    /// The verdict is Unsupported Request: no port's range has the request's bus. No completion is made of it here.
    Unsupported,
    /// The list of ports or the packet was refused.
    Refused(Refusal),
}

impl fmt::Display for NotRouted {
    fn fmt(&self, formatter: &mut fmt::Formatter<'_>) -> fmt::Result {
        match self {
            NotRouted::Unsupported => formatter.write_str("Unsupported Request: no port has the packet's bus"),
            NotRouted::Refused(refusal) => refusal.fmt(formatter),
        }
    }
}

impl Error for NotRouted {}

/// So that `?` routes packets and reads lists in one function.
impl From<Refusal> for NotRouted {
    fn from(refusal: Refusal) -> Self {
        NotRouted::Refused(refusal)
    }
}
