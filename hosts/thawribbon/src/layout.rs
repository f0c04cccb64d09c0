//! The extended list of a new board: where its structures stand, and their headers.

use crate::Offset;
use crate::raw::{self, Structure};
use crate::refusal::{Refusal, served};

/// Structures of an extended list, and where each stands: a layout that the checker accepts.
///
/// There is one offset a structure, the first is 100h, all are multiples of 4, in the given order and rising, no two
/// structures overlap, and all end by 1000h. [`Layout::plan`] finds one, and [`Layout::check`] takes one from elsewhere. No
/// other is ever made, so none can be written that is not accepted.
///
/// ```
/// use thawribbon::{Layout, List, Refusal, Structure, headers};
///
/// let structures = [
///     Structure { id: 0x0023, version: 1, length: 22 },
///     Structure { id: 0x000C, version: 1, length: 8 },
/// ];
/// let mut room = [0; List::Extended.maximum()];
/// let layout = Layout::plan(&structures, &mut room)?;
/// assert_eq!(layout.offsets(), [0x100, 0x118]);
///
/// let mut space = [0; 4096];
/// layout.write(&mut space)?;
/// let listed: Vec<_> = headers(List::Extended, &space)?.iter().map(|header| header.to_string()).collect();
/// assert_eq!(listed, ["100 0023 1", "118 000C 1"]);
/// # Ok::<(), Refusal>(())
/// ```
#[derive(Clone, Copy, Debug, PartialEq, Eq, Hash)]
#[must_use = "its headers are in no space until it is written"]
pub struct Layout<'l> {
    structures: &'l [Structure],
    offsets: &'l [Offset],
}

impl<'l> Layout<'l> {
    /// Plans a layout: each structure stands as low as in any layout that the checker accepts.
    ///
    /// The offsets are put at the beginning of the room, and the rest of it stays as lent.
    ///
    /// ```
    /// use thawribbon::{Layout, Refusal, Structure};
    ///
    /// // Two structures fill the space to its last byte. One byte more, and there is no layout.
    /// let mut structures = [
    ///     Structure { id: 0x0023, version: 1, length: 5 },
    ///     Structure { id: 0x000C, version: 1, length: 3832 },
    /// ];
    /// let mut room = [0; 2];
    /// assert_eq!(Layout::plan(&structures, &mut room)?.offsets(), [0x100, 0x108]);
    /// structures[1].length += 1;
    /// assert_eq!(Layout::plan(&structures, &mut room), Err(Refusal::NoLayout));
    /// # Ok::<(), Refusal>(())
    /// ```
    ///
    /// # Errors
    ///
    /// The lowest of these that applies; it leaves the room as it was.
    ///
    /// - [`Refusal::BadDescription`]: there are no structures or over 960, an ID is 0000h, a version over 15, or a length
    ///   outside 4 to 3,840.
    /// - [`Refusal::NoRoom`]: the room has fewer numbers than there are structures.
    /// - [`Refusal::NoLayout`]: there is none. The lengths before the last, each rounded up to 4, plus the last as it stands
    ///   exceed 3,840.
    #[inline]
    pub fn plan(structures: &'l [Structure], room: &'l mut [Offset]) -> Result<Self, Refusal> {
        served(raw::plan_layout(structures, room))?;
        let offsets = &room[..structures.len()];
        Ok(Layout { structures, offsets })
    }

    /// Checks a layout that comes from elsewhere.
    ///
    /// ```
    /// use thawribbon::{Layout, Refusal, Structure};
    ///
    /// let structures = [Structure { id: 0x0023, version: 1, length: 22 }; 2];
    /// assert!(Layout::check(&structures, &[0x100, 0x200]).is_ok());
    /// // The first ends behind 114h; and there is an offset too few.
    /// assert_eq!(Layout::check(&structures, &[0x100, 0x114]), Err(Refusal::NotAccepted));
    /// assert_eq!(Layout::check(&structures, &[0x100]), Err(Refusal::NotAccepted));
    /// ```
    ///
    /// # Errors
    ///
    /// - [`Refusal::BadDescription`]: the structures are such as [`Layout::plan`] refuses with it.
    /// - [`Refusal::NotAccepted`]: otherwise, where it is not accepted.
    #[inline]
    pub fn check(structures: &'l [Structure], offsets: &'l [Offset]) -> Result<Self, Refusal> {
        served(raw::check_layout(structures, offsets))?;
        Ok(Layout { structures, offsets })
    }

    /// Writes the header of each structure into a space of 4,096 bytes: its ID, its version, and the offset of the next,
    /// which is 0 in the last. No other byte changes.
    ///
    /// ```
    /// use thawribbon::{Layout, Refusal, Structure};
    ///
    /// let structures = [Structure { id: 0x0023, version: 1, length: 22 }; 2];
    /// let mut space = [0xEE; 4096];
    /// Layout::check(&structures, &[0x100, 0x200])?.write(&mut space)?;
    /// assert_eq!(space[0x100..0x105], [0x23, 0x00, 0x01, 0x20, 0xEE]);
    /// assert_eq!(space[0x200..0x205], [0x23, 0x00, 0x01, 0x00, 0xEE]);
    /// # Ok::<(), Refusal>(())
    /// ```
    ///
    /// # Errors
    ///
    /// [`Refusal::BadDescription`]: the space isn't 4,096 bytes. Nothing is written then.
    #[inline]
    pub fn write(self, space: &mut [u8]) -> Result<(), Refusal> {
        served(raw::write_layout(self.structures, self.offsets, space))
    }

    /// The structures, in their order.
    #[must_use]
    #[inline]
    pub const fn structures(self) -> &'l [Structure] {
        self.structures
    }

    /// Where each stands, in the same order.
    #[must_use]
    #[inline]
    pub const fn offsets(self) -> &'l [Offset] {
        self.offsets
    }
}
