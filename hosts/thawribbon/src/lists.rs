//! The three capability lists, as the offsets of their headers, and as the headers.

use crate::Offset;
use crate::constants::{COMPATIBLE_MAXIMUM, EXTENDED_MAXIMUM, TRUSTED_MAXIMUM};
use crate::raw;
use crate::refusal::{Refusal, walked};
use std::fmt;

/// One of the three capability lists of a space.
#[derive(Clone, Copy, Debug, PartialEq, Eq, Hash)]
pub enum List {
    /// Starts at byte 34h; empty if byte 06h bit 4 is 0.
    Compatible,
    /// Starts at 100h; empty if the whole word there is zero. Otherwise its chain begins at 100h, also where the ID there
    /// is 0000h: a capability that a supplier blanked is still in the list, and so is what is behind it.
    Extended,
    /// Starts where bits 11:0 of the word at 004h say.
    Trusted,
}

impl List {
    /// The most offsets that the list can have, so the numbers that a room for it must have.
    ///
    /// ```
    /// use thawribbon::List;
    ///
    /// let room = [0; List::Extended.maximum()];
    /// assert_eq!(room.len(), 960);
    /// assert_eq!((List::Compatible.maximum(), List::Trusted.maximum()), (48, 1022));
    /// ```
    #[must_use]
    pub const fn maximum(self) -> usize {
        match self {
            List::Compatible => COMPATIBLE_MAXIMUM,
            List::Extended => EXTENDED_MAXIMUM,
            List::Trusted => TRUSTED_MAXIMUM,
        }
    }
}

/// A header of a list: where it is, and what it says it is.
///
/// It is written as the listing program writes it, in upper-case hexadecimal digits.
///
/// ```
/// use thawribbon::Header;
///
/// assert_eq!(Header { offset: 0x040, id: 0x09, version: None }.to_string(), "040 09");
/// assert_eq!(Header { offset: 0x100, id: 0x23, version: Some(1) }.to_string(), "100 0023 1");
/// ```
#[derive(Clone, Copy, Debug, PartialEq, Eq, Hash)]
pub struct Header {
    /// The offset in the space, as [`dvsec`](crate::dvsec) and [`dual_bdf`](crate::dual_bdf) take it.
    pub offset: Offset,
    /// The ID: a byte in the compatible list, bits 15:0 in the others. It is 0 where a supplier blanked the capability.
    pub id: u16,
    /// The version, bits 19:16; a header of the compatible list has none.
    pub version: Option<u8>,
}

impl Header {
    /// The header at an offset that a walk of the space gave.
    fn read(list: List, space: &[u8], offset: Offset) -> Self {
        let header = &space[usize::from(offset)..];
        match list {
            List::Compatible => Header {
                offset,
                id: header[0].into(),
                version: None,
            },
            List::Extended | List::Trusted => Header {
                offset,
                id: u16::from_le_bytes([header[0], header[1]]),
                version: Some(header[2] & 0x0F),
            },
        }
    }
}

impl fmt::Display for Header {
    fn fmt(&self, formatter: &mut fmt::Formatter<'_>) -> fmt::Result {
        match self.version {
            None => write!(formatter, "{:03X} {:02X}", self.offset, self.id),
            Some(version) => write!(formatter, "{:03X} {:04X} {version:X}", self.offset, self.id),
        }
    }
}

/// Walks a list of a space of 4,096 bytes: puts the offsets of its legal chain, in order, at the beginning of the room,
/// and gives them.
///
/// The rest of the room stays as lent. [`chain`] needs no room, and [`headers`] tells IDs and versions too.
///
/// ```
/// use thawribbon::{List, Refusal, walk};
///
/// let mut space = [0; 4096];
/// space[0x06] = 0x10; // there is a compatible list
/// space[0x34] = 0x40; // it starts at 40h,
/// space[0x40..0x42].copy_from_slice(&[0x09, 0x80]); // goes on at 80h,
/// space[0x80..0x82].copy_from_slice(&[0x10, 0x00]); // and ends there
///
/// let mut room = [0; List::Compatible.maximum()];
/// assert_eq!(walk(List::Compatible, &space, &mut room)?, [0x40, 0x80]);
///
/// // A pointer that leads back holds nobody all night, and the refusal says where it stands.
/// space[0x81] = 0x40;
/// assert_eq!(walk(List::Compatible, &space, &mut room), Err(Refusal::ComesBack { place: 0x80 }));
/// # Ok::<(), Refusal>(())
/// ```
///
/// # Errors
///
/// The lowest of these that applies; it leaves the room as it was.
///
/// - [`Refusal::BadDescription`]: the space isn't 4,096 bytes.
/// - [`Refusal::NoRoom`]: the room has fewer numbers than [`List::maximum`], also where the chain is shorter.
/// - [`Refusal::BelowFloor`] or [`Refusal::ComesBack`]: no finite legal chain leads from the start to an end. It tells the
///   first pointer at fault on the way, and its place.
#[inline]
pub fn walk<'r>(list: List, space: &[u8], room: &'r mut [Offset]) -> Result<&'r [Offset], Refusal> {
    let answer = match list {
        List::Compatible => raw::walk_compatible(space, room),
        List::Extended => raw::walk_extended(space, room),
        List::Trusted => raw::walk_trusted(space, room),
    };
    let count = walked(answer)?;
    Ok(&room[..count])
}

/// The offsets of a list's legal chain, in order.
///
/// ```
/// use thawribbon::{List, Refusal, chain};
///
/// let mut space = [0; 4096];
/// assert_eq!(chain(List::Extended, &space)?, []);
///
/// // P11's record at 100h, and nothing behind it.
/// space[0x100..0x10A].copy_from_slice(&[0x23, 0x00, 0x01, 0x00, 0xC0, 0x1E, 0x00, 0x01, 0x02, 0x00]);
/// assert_eq!(chain(List::Extended, &space)?, [0x100]);
///
/// // P12: the header points to itself.
/// space[0x103] = 0x10;
/// assert_eq!(chain(List::Extended, &space), Err(Refusal::ComesBack { place: 0x100 }));
/// # Ok::<(), Refusal>(())
/// ```
///
/// # Errors
///
/// [`Refusal::BadDescription`], [`Refusal::BelowFloor`] and [`Refusal::ComesBack`], as [`walk`] gives them.
pub fn chain(list: List, space: &[u8]) -> Result<Vec<Offset>, Refusal> {
    let mut room = [0; TRUSTED_MAXIMUM];
    walk(list, space, &mut room).map(<[Offset]>::to_vec)
}

/// The headers of a list's legal chain, in order: offset, ID and version.
///
/// ```
/// use thawribbon::{Header, List, Refusal, headers};
///
/// // P11's record at 100h, which points to a structure at 140h with version 2.
/// let mut space = [0; 4096];
/// space[0x100..0x10A].copy_from_slice(&[0x23, 0x00, 0x01, 0x14, 0xC0, 0x1E, 0x00, 0x01, 0x02, 0x00]);
/// space[0x140..0x144].copy_from_slice(&[0x0C, 0x00, 0x02, 0x00]);
///
/// let dvsec = Header { offset: 0x100, id: 0x0023, version: Some(1) };
/// let other = Header { offset: 0x140, id: 0x000C, version: Some(2) };
/// assert_eq!(headers(List::Extended, &space)?, [dvsec, other]);
///
/// // Blanked, with its ID zeroed and its pointer kept, it is a null capability, and what is behind it is still listed.
/// space[0x100] = 0x00;
/// assert_eq!(headers(List::Extended, &space)?, [Header { id: 0x0000, ..dvsec }, other]);
/// # Ok::<(), Refusal>(())
/// ```
///
/// # Errors
///
/// [`Refusal::BadDescription`], [`Refusal::BelowFloor`] and [`Refusal::ComesBack`], as [`walk`] gives them.
pub fn headers(list: List, space: &[u8]) -> Result<Vec<Header>, Refusal> {
    let mut room = [0; TRUSTED_MAXIMUM];
    let offsets = walk(list, space, &mut room)?;
    Ok(offsets.iter().map(|&at| Header::read(list, space, at)).collect())
}
