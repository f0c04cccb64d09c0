//! The asking side: a request from its parts, the packet that is sent for it, and the completion that answers it.

use crate::Offset;
use crate::completion::{Completion, Id, Said};
use crate::constants::{REQUEST, TRUSTED_READ, TRUSTED_WRITE, TYPE0_READ, TYPE0_WRITE, TYPE1_READ, TYPE1_WRITE};
use crate::not_answered::NotAnswered;
use crate::not_done::NotDone;
use crate::packet::Packet;
use crate::raw;
use crate::refusal::{Refusal, served};

/// The six kinds of a request: whether it reads or writes, and whether it is Type 0, Type 1 or trusted.
#[derive(Clone, Copy, Debug, PartialEq, Eq, Hash)]
pub enum Kind {
    /// A read of the ordinary space of a board on the bus where it is sent.
    Type0Read,
    /// A write to it. A board captures its bus and device number from one that is done.
    Type0Write,
    /// A read for a bus behind a switch, which passes it on.
    Type1Read,
    /// A write for a bus behind a switch.
    Type1Write,
    /// A read of the trusted space.
    TrustedRead,
    /// A write to the trusted space.
    TrustedWrite,
}

impl Kind {
    /// The type code, which is byte 0 of the packet.
    ///
    /// ```
    /// use thawribbon::{Kind, TRUSTED_WRITE};
    ///
    /// assert_eq!(Kind::TrustedWrite.code(), TRUSTED_WRITE);
    /// ```
    #[must_use]
    pub const fn code(self) -> u8 {
        match self {
            Kind::Type0Read => TYPE0_READ,
            Kind::Type0Write => TYPE0_WRITE,
            Kind::Type1Read => TYPE1_READ,
            Kind::Type1Write => TYPE1_WRITE,
            Kind::TrustedRead => TRUSTED_READ,
            Kind::TrustedWrite => TRUSTED_WRITE,
        }
    }

    /// Whether it writes: then its packet has data, and the completion of one that is done has none.
    #[must_use]
    pub const fn writes(self) -> bool {
        matches!(self, Kind::Type0Write | Kind::Type1Write | Kind::TrustedWrite)
    }
}

/// A request: what is asked of whom, and by whom.
///
/// Six functions begin one, a function for each [`Kind`]; [`by`](Request::by) and [`enabling`](Request::enabling) go on.
/// Any values may be given, and every field may be read and set; [`packet`](Request::packet) refuses those outside their
/// range.
///
/// A request that is not given `by` is from 00 00 with tag 0, and completions of such requests cannot be told apart: name
/// requester and tag wherever more than one request may be on its way.
///
/// ```
/// use thawribbon::{Id, Refusal, Request};
///
/// let host = [0x01, 0x00];
/// let target = Id { bus: 0x05, device: 3, function: 0 };
///
/// // P1's and P2's packets.
/// let read = Request::trusted_read(target, 0x004).by(host, 8);
/// assert_eq!(read.packet()?.bytes(), [0x1B, 0x00, 0x00, 0x01, 0x01, 0x00, 0x08, 0x0F, 0x05, 0x18, 0x00, 0x04]);
/// let write = Request::type0_write(target, 0x004, [0x11, 0x22, 0x33, 0x44]).by(host, 7);
/// assert_eq!(write.packet()?[..8], [0x44, 0x00, 0x00, 0x01, 0x01, 0x00, 0x07, 0x0F]);
///
/// // An offset that is not a multiple of 4 is no word's.
/// assert_eq!(Request::type0_read(target, 0x006).packet(), Err(Refusal::BadDescription));
/// # Ok::<(), Refusal>(())
/// ```
#[derive(Clone, Copy, Debug, PartialEq, Eq, Hash)]
#[must_use = "it is not written yet: `packet` gives what to send"]
pub struct Request {
    /// Whether it reads or writes, and whether it is Type 0, Type 1 or trusted.
    pub kind: Kind,
    /// Who asks, as it is sent: the bus, then device × 8 + function. Any two bytes may be given.
    pub requester: [u8; 2],
    /// By which the requester knows the completion.
    pub tag: u8,
    /// Whom it is for.
    pub target: Id,
    /// The offset of the word: a multiple of 4 up to FFCh.
    pub offset: Offset,
    /// The first enables, 0 to 15, the bytes that a write may change: bit 0 is the byte at the lowest address. A read is
    /// given all four bytes whatever they are, by a board from version 0.8.0 on; where one before may answer, enable all four.
    pub enables: u8,
    /// What a write writes; for a read it is not looked at.
    pub data: [u8; 4],
}

impl Request {
    /// A request of a kind, with all four bytes enabled, from 00 00 with tag 0.
    const fn of(kind: Kind, target: Id, offset: Offset, data: [u8; 4]) -> Self {
        Request {
            kind,
            requester: [0; 2],
            tag: 0,
            target,
            offset,
            enables: 0x0F,
            data,
        }
    }

    /// A Type 0 read of the word at an offset, with all four bytes enabled, from 00 00 with tag 0.
    pub const fn type0_read(target: Id, offset: Offset) -> Self {
        Request::of(Kind::Type0Read, target, offset, [0; 4])
    }

    /// A Type 0 write of four bytes to the word at an offset, with all of them enabled, from 00 00 with tag 0.
    pub const fn type0_write(target: Id, offset: Offset, data: [u8; 4]) -> Self {
        Request::of(Kind::Type0Write, target, offset, data)
    }

    /// A Type 1 read, as [`type0_read`](Request::type0_read).
    pub const fn type1_read(target: Id, offset: Offset) -> Self {
        Request::of(Kind::Type1Read, target, offset, [0; 4])
    }

    /// A Type 1 write, as [`type0_write`](Request::type0_write).
    pub const fn type1_write(target: Id, offset: Offset, data: [u8; 4]) -> Self {
        Request::of(Kind::Type1Write, target, offset, data)
    }

    /// A trusted read, as [`type0_read`](Request::type0_read).
    pub const fn trusted_read(target: Id, offset: Offset) -> Self {
        Request::of(Kind::TrustedRead, target, offset, [0; 4])
    }

    /// A trusted write, as [`type0_write`](Request::type0_write).
    pub const fn trusted_write(target: Id, offset: Offset, data: [u8; 4]) -> Self {
        Request::of(Kind::TrustedWrite, target, offset, data)
    }

    /// The same request by this requester, two bytes as they are sent, with this tag: the completion says both, and is known
    /// by them.
    pub const fn by(mut self, requester: [u8; 2], tag: u8) -> Self {
        self.requester = requester;
        self.tag = tag;
        self
    }

    /// The same request with these bytes enabled, which is for a write: it changes no other. Bit 0 is the byte at the lowest
    /// address.
    pub const fn enabling(mut self, enables: u8) -> Self {
        self.enables = enables;
        self
    }

    /// The packet to send: 12 bytes for a read and 16 for a write, without a digest, with reserved bits 0, and with bit 7 of
    /// byte 0 clear, so that boards of either [`Edition`](crate::Edition) answer it alike.
    ///
    /// It has bytes of its own, so there is always room; [`raw::write_request`] writes into a buffer that is lent.
    ///
    /// # Errors
    ///
    /// [`Refusal::BadDescription`]: the target's device is over 31, its function over 7, the offset over FFCh or not a
    /// multiple of 4, or the enables over 15.
    #[inline]
    pub fn packet(&self) -> Result<Packet, Refusal> {
        let mut buffer = [0; REQUEST];
        let written = raw::write_request(self.parts(), &mut buffer);
        served(written.number)?;
        Ok(Packet::written(buffer, written.length))
    }

    /// The parts as the linked functions take them.
    #[inline]
    fn parts(&self) -> raw::Parts {
        raw::Parts {
            offset: self.offset.into(),
            kind: self.kind.code(),
            requester: self.requester,
            tag: self.tag,
            bus: self.target.bus,
            device: self.target.device,
            function: self.target.function,
            enables: self.enables,
            data: self.data,
        }
    }

    /// Reads the completion that came for this request: [`Completion::read`], and whether it is this request's.
    ///
    /// `Ok` means that the access was done, and `?` stops at one that was not. After a read the completion has
    /// [`data`](Completion::data).
    ///
    /// It knows a completion by requester, tag and data alone. Requests that are not given [`by`](Request::by) are all from
    /// 00 00 with tag 0, so the completion of one may pass for another's: name requester and tag wherever more than one
    /// request may be on its way.
    ///
    /// ```
    /// use thawribbon::{Id, NotAnswered, Refusal, Request, Said};
    ///
    /// let host = [0x01, 0x00];
    /// let read = Request::trusted_read(Id { bus: 0x05, device: 3, function: 0 }, 0x004).by(host, 8);
    ///
    /// // P3's completion, and P1's, which is an Unsupported Request.
    /// let p3 = [0x4A, 0x00, 0x00, 0x01, 0x05, 0x18, 0x00, 0x04, 0x01, 0x00, 0x08, 0x00, 0x08, 0x00, 0x00, 0x00];
    /// let p1 = [0x0A, 0x00, 0x00, 0x00, 0x00, 0x00, 0x20, 0x04, 0x01, 0x00, 0x08, 0x00];
    /// assert_eq!(read.answered_by(&p3)?.said(), Said::Data([0x08, 0x00, 0x00, 0x00]));
    /// assert!(matches!(read.answered_by(&p1), Err(NotAnswered::Unsupported(_))));
    ///
    /// // Another tag, and a completion that lost its last byte.
    /// assert!(matches!(read.by(host, 9).answered_by(&p3), Err(NotAnswered::Other(_))));
    /// assert_eq!(read.answered_by(&p3[..15]), Err(NotAnswered::Refused(Refusal::WrongLength)));
    /// # Ok::<(), NotAnswered>(())
    /// ```
    ///
    /// # Errors
    ///
    /// - [`NotAnswered::Refused`]: the bytes are no completion; the refusals are those of [`Completion::read`].
    /// - [`NotAnswered::Other`]: it has another requester or tag than the request, or data for a write, or none for a read
    ///   that was done.
    /// - [`NotAnswered::Unsupported`]: the answer is Unsupported Request, and nothing has changed.
    #[inline]
    pub fn answered_by(&self, completion: &[u8]) -> Result<Completion, NotAnswered> {
        let read = Completion::read(completion);
        match read {
            Ok(completion) | Err(NotDone::Unsupported(completion)) if !self.has_as_answer(&completion) => {
                Err(NotAnswered::Other(completion))
            }
            _ => Ok(read?),
        }
    }

    /// Whether a completion has this request's requester and tag, and data only where it reads.
    #[inline]
    fn has_as_answer(&self, completion: &Completion) -> bool {
        let fits = match completion.said() {
            Said::Data(_) => !self.kind.writes(),
            Said::Done => self.kind.writes(),
            Said::Unsupported => true,
        };
        fits && completion.requester_bytes() == self.requester && completion.tag() == self.tag
    }
}
