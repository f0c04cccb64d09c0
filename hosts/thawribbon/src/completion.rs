//! A board's completion, as it gives it and as it is read back, taken apart: whether the access was done, its data, who
//! answers whom, and the bytes themselves.

use crate::constants::{DATA, REPLY, STATUS, STATUS_SUCCESSFUL};
use crate::not_done::NotDone;
use crate::raw;
use crate::refusal::served;
use std::fmt;

/// What the status byte of a completion says.
#[derive(Clone, Copy, Debug, PartialEq, Eq, Hash)]
pub enum Status {
    /// The access was done.
    Successful,
    /// Unsupported Request: the access was not done, and nothing has changed.
    Unsupported,
}

/// What a completion says: the status, and the data in it.
#[derive(Clone, Copy, Debug, PartialEq, Eq, Hash)]
pub enum Said {
    /// Success with data: a read was done, and gave these four bytes; a board before version 0.8.0 gave 00h for those not
    /// enabled.
    Data([u8; 4]),
    /// Success without data: a write was done.
    Done,
    /// Unsupported Request: the access was not done, and nothing has changed.
    Unsupported,
}

/// A bus, device and function number: who asks, who is asked, or who answers.
///
/// It is written as lspci writes it.
///
/// ```
/// use thawribbon::Id;
///
/// assert_eq!(Id { bus: 0x05, device: 0x1F, function: 7 }.to_string(), "05:1f.7");
/// ```
#[derive(Clone, Copy, Debug, PartialEq, Eq, Hash)]
pub struct Id {
    /// The bus number.
    pub bus: u8,
    /// The device number, 0 to 31.
    pub device: u8,
    /// The function number, 0 to 7.
    pub function: u8,
}

impl Id {
    #[inline]
    fn of([bus, rest]: [u8; 2]) -> Self {
        Id {
            bus,
            device: rest >> 3,
            function: rest & 7,
        }
    }
}

impl fmt::Display for Id {
    fn fmt(&self, formatter: &mut fmt::Formatter<'_>) -> fmt::Result {
        write!(formatter, "{:02x}:{:02x}.{}", self.bus, self.device, self.function)
    }
}

/// What a board sends back to the requester of a packet: 12 bytes, or 16 with the data of a read.
///
/// It is the same on both sides: [`Board::serve`](crate::Board::serve) gives one to send back, and the requester has it
/// again by [`Completion::read`] from the bytes that came. No other bytes make one, so its bytes are always a completion of
/// document 01.
#[derive(Clone, Copy, PartialEq, Eq, Hash)]
pub struct Completion {
    reply: [u8; REPLY],
    length: usize,
}

impl Completion {
    /// The completion that was written at the beginning of a reply.
    #[inline]
    pub(crate) fn written(reply: [u8; REPLY], length: usize) -> Self {
        Completion { reply, length }
    }

    /// Reads back the completion that a board has sent.
    ///
    /// What it gives is what [`Board::serve`](crate::Board::serve) gave: `Ok` means that the access was done, and `?` stops
    /// at one that was not. It does not know what was asked; [`Request::answered_by`](crate::Request::answered_by) also
    /// sees whether the completion is the request's.
    ///
    /// ```
    /// use thawribbon::{Completion, NotDone, Refusal, Said};
    ///
    /// // P2's completion; with status 20h in the place of 00h; and with another first byte.
    /// let mut bytes = [0x0A, 0x00, 0x00, 0x00, 0x05, 0x18, 0x00, 0x04, 0x01, 0x00, 0x07, 0x00];
    /// let completion = Completion::read(&bytes)?;
    /// assert_eq!((completion.said(), completion.tag()), (Said::Done, 7));
    /// assert_eq!(completion.completer().to_string(), "05:03.0");
    ///
    /// bytes[6] = 0x20;
    /// assert!(matches!(Completion::read(&bytes), Err(NotDone::Unsupported(_))));
    /// bytes[0] = 0x44;
    /// assert_eq!(Completion::read(&bytes), Err(NotDone::Refused(Refusal::UnknownType)));
    /// # Ok::<(), NotDone>(())
    /// ```
    ///
    /// # Errors
    ///
    /// [`NotDone::Unsupported`]: the answer is Unsupported Request.
    ///
    /// [`NotDone::Refused`], with the lowest of these that applies: the bytes are no completion.
    ///
    /// - [`Refusal::ShortPacket`]: they are fewer than 12.
    /// - [`Refusal::UnknownType`]: the first is neither 4Ah nor 0Ah.
    /// - [`Refusal::WrongLength`]: they are not 16 with first byte 4Ah, or 12 with 0Ah.
    /// - [`Refusal::WrongField`]: any other byte is one that no reply with that first byte has at its place.
    ///
    /// [`Refusal::ShortPacket`]: crate::Refusal::ShortPacket
    /// [`Refusal::UnknownType`]: crate::Refusal::UnknownType
    /// [`Refusal::WrongLength`]: crate::Refusal::WrongLength
    /// [`Refusal::WrongField`]: crate::Refusal::WrongField
    #[inline]
    pub fn read(bytes: &[u8]) -> Result<Self, NotDone> {
        served(raw::read_completion(bytes).number)?;
        let mut reply = [0; REPLY];
        reply[..bytes.len()].copy_from_slice(bytes);
        Completion::written(reply, bytes.len()).done()
    }

    /// The completion where it says that the access was done.
    #[inline]
    pub(crate) fn done(self) -> Result<Self, NotDone> {
        match self.status() {
            Status::Successful => Ok(self),
            Status::Unsupported => Err(NotDone::Unsupported(self)),
        }
    }

    /// What it says: that a read was done, with its data, that a write was done, or that nothing was.
    #[must_use]
    #[inline]
    pub fn said(&self) -> Said {
        match (self.status(), self.data()) {
            (Status::Unsupported, _) => Said::Unsupported,
            (Status::Successful, Some(data)) => Said::Data(data),
            (Status::Successful, None) => Said::Done,
        }
    }

    /// Whether the access was done. Only status byte 00h says so; as in C, any other says that it was not.
    #[must_use]
    #[inline]
    pub fn status(&self) -> Status {
        if self.reply[STATUS] == STATUS_SUCCESSFUL {
            Status::Successful
        } else {
            Status::Unsupported
        }
    }

    /// The four bytes that a read gave: all of them, whatever it enabled, of a board from version 0.8.0 on; one before gave 00h
    /// for those not enabled, and a completion does not tell which. A write and an Unsupported Request have none.
    #[must_use]
    #[inline]
    pub fn data(&self) -> Option<[u8; 4]> {
        self.bytes()[DATA..].try_into().ok()
    }

    /// Who answers: the captured bus and device, which are 0 while none is captured, and the board's function, or that of its
    /// two which answers.
    #[must_use]
    #[inline]
    pub fn completer(&self) -> Id {
        Id::of([self.reply[4], self.reply[5]])
    }

    /// Who asked, as the packet says.
    #[must_use]
    #[inline]
    pub fn requester(&self) -> Id {
        Id::of(self.requester_bytes())
    }

    /// Who asked, as it is sent.
    #[inline]
    pub(crate) fn requester_bytes(&self) -> [u8; 2] {
        [self.reply[8], self.reply[9]]
    }

    /// The packet's tag, by which the requester knows what is answered.
    #[must_use]
    #[inline]
    pub fn tag(&self) -> u8 {
        self.reply[10]
    }

    /// The bytes as they go back to the requester: 12, or 16 with data.
    #[must_use]
    #[inline]
    pub fn bytes(&self) -> &[u8] {
        &self.reply[..self.length]
    }
}

impl fmt::Debug for Completion {
    fn fmt(&self, formatter: &mut fmt::Formatter<'_>) -> fmt::Result {
        formatter
            .debug_struct("Completion")
            .field("status", &self.status())
            .field("data", &format_args!("{:02X?}", self.data()))
            .field("completer", &format_args!("{}", self.completer()))
            .field("requester", &format_args!("{}", self.requester()))
            .field("tag", &format_args!("{:02X}", self.tag()))
            .finish()
    }
}

#[cfg(test)]
mod tests {
    use super::{Completion, Status};

    #[test]
    fn only_status_00h_says_that_it_was_done() {
        for status in 0..=255 {
            let mut reply = [0; 16];
            reply[6] = status;
            let expected = if status == 0x00 {
                Status::Successful
            } else {
                Status::Unsupported
            };
            assert_eq!(
                Completion::written(reply, 12).status(),
                expected,
                "status {status:02X}h"
            );
        }
    }
}
