//! The bytes of a request, as they are sent.

use crate::constants::REQUEST;
use std::fmt;
use std::ops::Deref;

/// A request's bytes, ready to be sent: 12 for a read, 16 for a write.
///
/// Only [`Request::packet`](crate::Request::packet) makes one, so they are always a packet that a board serves. It stands
/// wherever a slice of bytes does, as in [`Board::serve`](crate::Board::serve) and [`route`](crate::route).
#[derive(Clone, Copy, PartialEq, Eq, Hash)]
#[must_use = "it is not sent yet"]
pub struct Packet {
    written: [u8; REQUEST],
    length: usize,
}

impl Packet {
    /// The packet that was written at the beginning of a buffer.
    #[inline]
    pub(crate) fn written(written: [u8; REQUEST], length: usize) -> Self {
        Packet { written, length }
    }

    /// The bytes to send.
    #[must_use]
    #[inline]
    pub fn bytes(&self) -> &[u8] {
        &self.written[..self.length]
    }
}

impl Deref for Packet {
    type Target = [u8];

    #[inline]
    fn deref(&self) -> &[u8] {
        self.bytes()
    }
}

impl fmt::Debug for Packet {
    fn fmt(&self, formatter: &mut fmt::Formatter<'_>) -> fmt::Result {
        write!(formatter, "Packet({:02X?})", self.bytes())
    }
}
