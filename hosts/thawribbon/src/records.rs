//! The two records: DVSEC, which answers two questions, and Dual-BDF.

use crate::Offset;
use crate::raw;
use crate::refusal::{Refusal, served};

/// The header of a DVSEC record.
#[derive(Clone, Copy, Debug, PartialEq, Eq, Hash)]
pub struct Dvsec {
    /// The vendor, bits 15:0 of header 1.
    pub vendor: u16,
    /// The revision, bits 19:16 of header 1.
    pub revision: u8,
    /// The ID, the 16 bits at +8.
    pub id: u16,
    /// DVSEC Length, bits 31:20 of header 1: of the whole record. Its body is 0Ah bytes shorter.
    pub length: u16,
}

/// What a Dual-BDF record says.
#[derive(Clone, Copy, Debug, PartialEq, Eq, Hash)]
pub struct Alternate {
    /// The alternate function: the place of the vector's one bit, 0 to 7.
    pub function: u8,
    /// The device, 0 to 31.
    pub device: u8,
}

/// Reads the header of the DVSEC record at an offset of a space of 4,096 bytes.
///
/// ```
/// use thawribbon::{Dvsec, Refusal, dvsec};
///
/// // P11's record.
/// let mut space = [0; 4096];
/// space[0x100..0x10A].copy_from_slice(&[0x23, 0x00, 0x01, 0x00, 0xC0, 0x1E, 0x00, 0x01, 0x02, 0x00]);
/// assert_eq!(dvsec(&space, 0x100)?, Dvsec { vendor: 0x1EC0, revision: 0, id: 0x0002, length: 0x10 });
///
/// assert_eq!(dvsec(&space, 0x104), Err(Refusal::OtherStructure));
/// # Ok::<(), Refusal>(())
/// ```
///
/// # Errors
///
/// The first of these that applies:
///
/// - [`Refusal::BadDescription`]: the space isn't 4,096 bytes, or the offset isn't a multiple of 4 from 100h to FFCh.
/// - [`Refusal::OtherStructure`]: the ID isn't 0023h, or the version isn't 1h.
/// - [`Refusal::WrongExtent`]: fewer than 0Ah bytes are left, or DVSEC Length is under 0Ah or ends past 1000h.
#[inline]
pub fn dvsec(space: &[u8], at: Offset) -> Result<Dvsec, Refusal> {
    let answer = raw::dvsec(space, at.into());
    served(answer.number)?;
    Ok(Dvsec {
        vendor: answer.vendor,
        revision: answer.revision,
        id: answer.id,
        length: answer.length,
    })
}

/// The register body of the DVSEC record at an offset, as it lies in the space: from +0Ah to the length.
///
/// `None` where [`dvsec`] refuses, which gives the number. A record that is nothing but its header has a body, and it is
/// empty. In C a start that is 0 tells the first from the second.
///
/// ```
/// use thawribbon::dvsec_body;
///
/// // P11's record, of length 10h, with six bytes behind its header.
/// let mut space = [0; 4096];
/// space[0x100..0x10A].copy_from_slice(&[0x23, 0x00, 0x01, 0x00, 0xC0, 0x1E, 0x00, 0x01, 0x02, 0x00]);
/// space[0x10A..0x110].copy_from_slice(&[1, 2, 3, 4, 5, 6]);
/// assert_eq!(dvsec_body(&space, 0x100), Some(&[1, 2, 3, 4, 5, 6][..]));
///
/// assert_eq!(dvsec_body(&space, 0x104), None);
/// ```
#[must_use]
#[inline]
pub fn dvsec_body(space: &[u8], at: Offset) -> Option<&[u8]> {
    let part = raw::dvsec_body(space, at.into());
    (part.start != 0).then(|| &space[part.start..][..part.length])
}

/// Reads the Dual-BDF record at an offset of a space of 4,096 bytes.
///
/// ```
/// use thawribbon::{Alternate, Refusal, dual_bdf};
///
/// // P9's record, and P10's with two bits in its vector.
/// let mut space = [0; 4096];
/// space[0x040..0x04C].copy_from_slice(&[0x09, 0x00, 0x0C, 0x00, 0xC0, 0x1E, 0xC0, 0x00, 0x02, 0x00, 0x02, 0x03]);
/// assert_eq!(dual_bdf(&space, 0x040)?, Alternate { function: 1, device: 3 });
///
/// space[0x04A] = 0x03;
/// assert_eq!(dual_bdf(&space, 0x040), Err(Refusal::NotOneFunction));
/// # Ok::<(), Refusal>(())
/// ```
///
/// # Errors
///
/// The first of these that applies:
///
/// - [`Refusal::BadDescription`]: the space isn't 4,096 bytes, or the offset isn't a multiple of 4 from 040h to 0FCh.
/// - [`Refusal::OtherStructure`]: byte 0 isn't 09h.
/// - [`Refusal::WrongExtent`]: offset + 12 is over 100h, the capability length isn't 0Ch, or DVSEC Length isn't 00Ch.
/// - [`Refusal::OtherStructure`]: the revision isn't 0, or it is neither vendor 8086h with ID 0009h nor vendor 1EC0h
///   with ID 0002h.
/// - [`Refusal::NotOneFunction`]: the function vector hasn't exactly one bit set.
#[inline]
pub fn dual_bdf(space: &[u8], at: Offset) -> Result<Alternate, Refusal> {
    let answer = raw::dual_bdf(space, at.into());
    served(answer.number)?;
    Ok(Alternate {
        function: answer.function,
        device: answer.device,
    })
}
