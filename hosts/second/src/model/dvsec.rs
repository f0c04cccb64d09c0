//! The DVSEC record of an extended capability: its fields, and its register body.

use super::refusal::Refusal;
use super::space::{SPACE_BYTES, Space, is_word_offset, whole, word};

/// The extended capability ID 0023h with version 1h, as they stand in bits 19:0 of the header.
const ID_AND_VERSION: u32 = 0x1_0023;
/// The bytes of the three headers: the least DVSEC Length, and the start of the body.
const HEADER_BYTES: usize = 0x0A;

/// The number, and the fields of a DVSEC record; all of them are 0 where it is refused.
#[derive(Clone, Copy, Debug, PartialEq, Eq)]
pub struct Dvsec {
    pub number: u8,
    pub vendor: u16,
    pub revision: u8,
    pub id: u16,
    pub length: u16,
}

/// Reads the headers of the DVSEC record at an offset.
pub fn dvsec(space: &[u8], at: usize) -> Dvsec {
    match whole(space).and_then(|space| read(space, at)) {
        Ok(record) => record,
        Err(refusal) => Dvsec {
            number: refusal.number(),
            vendor: 0,
            revision: 0,
            id: 0,
            length: 0,
        },
    }
}

/// "the register body itself, as it lies in the lent space from +0Ah to the length"; "refused in the same cases by an
/// empty answer".
pub fn dvsec_body(space: &[u8], at: usize) -> &[u8] {
    match whole(space).and_then(|space| read(space, at)) {
        Ok(record) => &space[at + HEADER_BYTES..at + usize::from(record.length)],
        Err(_) => &[],
    }
}

/// "asked for at a multiple of 4 from 100h to FFCh, else 1. ID 0023h and version 1h, else 8. At least 0Ah bytes left,
/// DVSEC Length at least 0Ah and ending by 1000h, else 9. Header 1 at +4: vendor 15:0, revision 19:16, length 31:20. ID
/// at +8, 16 bits."
fn read(space: &Space, at: usize) -> Result<Dvsec, Refusal> {
    if !is_word_offset(at, 0x100, 0xFFC) {
        return Err(Refusal::Outside);
    }
    if word(space, at) & 0xF_FFFF != ID_AND_VERSION {
        return Err(Refusal::Structure);
    }
    if SPACE_BYTES - at < HEADER_BYTES {
        return Err(Refusal::StructureLength);
    }
    let header = word(space, at + 4);
    let length = (header >> 20) as u16;
    if !(HEADER_BYTES..=SPACE_BYTES - at).contains(&usize::from(length)) {
        return Err(Refusal::StructureLength);
    }
    debug_assert!(at + HEADER_BYTES <= SPACE_BYTES && at + usize::from(length) <= SPACE_BYTES);
    Ok(Dvsec {
        number: 0,
        vendor: header as u16,
        revision: (header >> 16) as u8 & 0x0F,
        id: word(space, at + 8) as u16,
        length,
    })
}
