//! The Dual-BDF record of the compatible list: the alternate function, and the device.

use super::refusal::Refusal;
use super::space::{Space, is_word_offset, whole, word};

/// The vendor-specific capability's ID.
const CAPABILITY_ID: u8 = 0x09;
/// The bytes of the structure, both as capability length and as DVSEC Length.
const RECORD_BYTES: usize = 0x0C;
/// The end of the space that the compatible list reaches.
const COMPATIBLE_END: usize = 0x100;
/// The vendors, each with its ID for this structure.
const VENDORS_AND_IDS: [(u16, u16); 2] = [(0x8086, 0x0009), (0x1EC0, 0x0002)];

/// The number, and the alternate function and the device of a Dual-BDF record; both are 0 where it is refused.
#[derive(Clone, Copy, Debug, PartialEq, Eq)]
pub struct Alternate {
    pub number: u8,
    pub function: u8,
    pub device: u8,
}

/// Reads the Dual-BDF record at an offset.
pub fn dual_bdf(space: &[u8], at: usize) -> Alternate {
    match whole(space).and_then(|space| read(space, at)) {
        Ok((function, device)) => Alternate {
            number: 0,
            function,
            device,
        },
        Err(refusal) => Alternate {
            number: refusal.number(),
            function: 0,
            device: 0,
        },
    }
}

/// "asked for at a multiple of 4 from 040h to 0FCh, else 1. In order: byte 0 is 09h, else 8; offset + 12 at most 100h,
/// capability length 0Ch, DVSEC Length 00Ch, else 9; revision 0, and vendor 8086h with ID 0009h or vendor 1EC0h with ID
/// 0002h, else 8; exactly one bit of the eight is set in bits 23:16 of the third word, else 10."
fn read(space: &Space, at: usize) -> Result<(u8, u8), Refusal> {
    if !is_word_offset(at, 0x040, 0x0FC) {
        return Err(Refusal::Outside);
    }
    if space[at] != CAPABILITY_ID {
        return Err(Refusal::Structure);
    }
    if at + RECORD_BYTES > COMPATIBLE_END || usize::from(space[at + 2]) != RECORD_BYTES {
        return Err(Refusal::StructureLength);
    }
    let header = word(space, at + 4);
    if (header >> 20) as usize != RECORD_BYTES {
        return Err(Refusal::StructureLength);
    }
    let last = word(space, at + 8);
    let revision = header >> 16 & 0xF;
    if revision != 0 || !VENDORS_AND_IDS.contains(&(header as u16, last as u16)) {
        return Err(Refusal::Structure);
    }
    let function = only_bit((last >> 16) as u8).ok_or(Refusal::Vector)?;
    Ok((function, (last >> 24) as u8 & 0x1F))
}

/// The place of a vector's bit, where "exactly one bit of the eight is set": it is the one power of two that the vector
/// equals.
fn only_bit(vector: u8) -> Option<u8> {
    (0..8).find(|place| vector == 1 << place)
}

#[cfg(test)]
mod tests {
    use super::only_bit;

    #[test]
    fn one_bit_is_told_by_its_place_and_more_or_none_are_not() {
        for vector in 0..=u8::MAX {
            let set: Vec<u8> = (0..8).filter(|place| vector >> place & 1 == 1).collect();
            let expected = if let [only] = set[..] { Some(only) } else { None };
            assert_eq!(only_bit(vector), expected, "{vector:#010b}");
        }
    }
}
