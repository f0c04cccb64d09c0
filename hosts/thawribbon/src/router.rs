//! A switch's router: by which port a packet leaves, and as which bytes.

use crate::constants::LEAVING;
use crate::not_routed::NotRouted;
use crate::raw::{self, Port};
use crate::refusal::served;
use std::fmt;

/// A packet that leaves a switch: the port that it leaves by, and its bytes there.
///
/// Only [`route`] makes one. It is not sent yet: that is for whoever has it.
#[derive(Clone, Copy, PartialEq, Eq, Hash)]
#[must_use = "it is not sent yet: its bytes have to leave by its port"]
pub struct Leaving {
    port: usize,
    written: [u8; LEAVING],
    length: usize,
}

impl Leaving {
    /// The place in the list of the port that the packet leaves by.
    #[must_use]
    #[inline]
    pub fn port(&self) -> usize {
        self.port
    }

    /// The bytes that leave there: 12, 16 or 20, as many as the packet has.
    #[must_use]
    #[inline]
    pub fn bytes(&self) -> &[u8] {
        &self.written[..self.length]
    }
}

impl fmt::Debug for Leaving {
    fn fmt(&self, formatter: &mut fmt::Formatter<'_>) -> fmt::Result {
        formatter
            .debug_struct("Leaving")
            .field("port", &self.port)
            .field("bytes", &format_args!("{:02X?}", self.bytes()))
            .finish()
    }
}

/// Routes a packet that a switch with these ports receives from its host: chooses the port that it leaves by, and gives
/// what leaves there.
///
/// `Ok` means that the packet leaves, and `?` stops at one that does not. A Type 1 request for a port's secondary bus
/// leaves there as Type 0; whatever else leaves has the packet's own bytes. A trusted request's never change. Bit 7 of byte
/// 0 is ignored, and goes along: what a board behind the switch does with it is said by its [`Edition`](crate::Edition).
///
/// ```
/// use thawribbon::{NotRouted, Port, Refusal, TRUSTED_WRITE, TYPE0_WRITE, TYPE1_WRITE, route};
///
/// let ports = [
///     Port { secondary: 0x05, subordinate: 0x07, tcs: true },
///     Port { secondary: 0x08, subordinate: 0x08, tcs: false },
/// ];
/// let write = |type_code, bus| [type_code, 0, 0, 1, 1, 0, 7, 0x0F, bus, 0x18, 0, 4, 0x11, 0x22, 0x33, 0x44];
///
/// // For bus 05h, the secondary bus of the first port; and for one further down.
/// let leaving = route(&ports, &write(TYPE1_WRITE, 0x05))?;
/// assert_eq!((leaving.port(), leaving.bytes()), (0, &write(TYPE0_WRITE, 0x05)[..]));
/// assert_eq!(route(&ports, &write(TYPE1_WRITE, 0x06))?.bytes(), write(TYPE1_WRITE, 0x06));
///
/// // Trusted: by a port that supports it, by one that does not, and for a bus that no port has.
/// assert_eq!(route(&ports, &write(TRUSTED_WRITE, 0x05))?.bytes(), write(TRUSTED_WRITE, 0x05));
/// assert_eq!(route(&ports, &write(TRUSTED_WRITE, 0x08)), Err(NotRouted::Refused(Refusal::UnknownType)));
/// assert_eq!(route(&ports, &write(TRUSTED_WRITE, 0x09)), Err(NotRouted::Unsupported));
/// # Ok::<(), NotRouted>(())
/// ```
///
/// What leaves has bytes of its own; [`raw::route`] writes into a buffer that is lent.
///
/// # Errors
///
/// [`NotRouted::Unsupported`]: no port's range has the bus of a Type 1 or a trusted request.
///
/// [`NotRouted::Refused`], with the first of these that applies.
///
/// - [`Refusal::BadDescription`]: the list has over 32 ports, a port's secondary bus is over its subordinate bus, or two
///   ranges meet. The empty list is a good one.
/// - [`Refusal::ShortPacket`]: the packet has fewer than 12 bytes.
/// - [`Refusal::UnknownType`]: the type code isn't one of the six.
/// - [`Refusal::WrongLength`]: the packet isn't 12 bytes, plus 4 for a write, plus 4 if the digest bit is set.
/// - [`Refusal::WrongField`]: TC, Attr or the last enables aren't 0, or Length isn't 1.
/// - [`Refusal::UnknownType`]: it is a Type 0 request, or a trusted request for a bus in the range of a port that does
///   not support TCS routing.
///
/// [`Refusal::BadDescription`]: crate::Refusal::BadDescription
/// [`Refusal::ShortPacket`]: crate::Refusal::ShortPacket
/// [`Refusal::UnknownType`]: crate::Refusal::UnknownType
/// [`Refusal::WrongLength`]: crate::Refusal::WrongLength
/// [`Refusal::WrongField`]: crate::Refusal::WrongField
#[inline]
pub fn route(ports: &[Port], packet: &[u8]) -> Result<Leaving, NotRouted> {
    let mut written = [0; LEAVING];
    let answer = raw::route(ports, packet, &mut written);
    served(answer.number)?;
    // Only a 1 says that it leaves, as in C.
    if answer.leaves != 1 {
        return Err(NotRouted::Unsupported);
    }
    Ok(Leaving {
        port: answer.port.into(),
        written,
        length: answer.length,
    })
}
