//! A request written, by request 5/13: from its parts, as document 01's section "The packet" lays out its bytes.

use super::description::{LAST_DEVICE, LAST_FUNCTION, LAST_WORD};
use super::edition::Bit7;
use super::refusal::Refusal;
use super::request::{Access, HEADER_BYTES, Request, TAIL_BYTES, type_code};
use super::space::is_word_offset;

/// The highest enables: four bits.
const LAST_ENABLES: u8 = 15;
/// Bytes 1 to 3: no TC; no digest, no poison, no Attr; Length 1. "digest bit clear, reserved bits 0"
const FIXED: [u8; 3] = [0x00, 0x00, 0x01];

/// "kind, requester, tag, target, offset, enables and data (ignored for a read)". The kind is a type code; the target
/// is a bus, a device and a function.
#[derive(Clone, Copy, Debug, PartialEq, Eq)]
pub struct Parts {
    pub kind: u8,
    pub requester: [u8; 2],
    pub tag: u8,
    pub bus: u8,
    pub device: u8,
    pub function: u8,
    pub offset: u32,
    pub enables: u8,
    pub data: [u8; 4],
}

/// The answer to one who asks: the number, and how many bytes of the buffer are written.
#[derive(Clone, Copy, Debug, PartialEq, Eq)]
pub struct Written {
    pub number: u8,
    pub length: usize,
}

/// Writes a request to the start of a buffer. A refusal leaves the buffer as it was lent.
pub fn write_request(parts: &Parts, buffer: &mut [u8]) -> Written {
    match parts.write(buffer) {
        Ok(length) => Written { number: 0, length },
        Err(refusal) => Written {
            number: refusal.number(),
            length: 0,
        },
    }
}

impl Parts {
    /// "Refuse with 1 a kind outside the six, a device over 31, a function over 7, an offset over FFCh or not a multiple
    /// of 4, or enables over 15; after that, refuse with 2 a buffer shorter than those bytes."
    fn write(&self, buffer: &mut [u8]) -> Result<usize, Refusal> {
        let writes = self.writes()?;
        self.check()?;
        let length = HEADER_BYTES + TAIL_BYTES * usize::from(writes);
        let request = buffer.get_mut(..length).ok_or(Refusal::Room)?;
        let (header, tail) = request.split_at_mut(HEADER_BYTES);
        header.copy_from_slice(&self.header());
        if writes {
            tail.copy_from_slice(&self.data);
        }
        debug_assert!(self.reads_back(request));
        Ok(length)
    }

    /// Whether it is a write. The kind is a type code as it stands: no bit of it is ignored.
    const fn writes(&self) -> Result<bool, Refusal> {
        match self.kind {
            0x04 | 0x05 | 0x1B => Ok(false),
            0x44 | 0x45 | 0x5B => Ok(true),
            _ => Err(Refusal::Outside),
        }
    }

    /// Refused with 1 where a number other than the kind is outside its range.
    const fn check(&self) -> Result<(), Refusal> {
        let within = self.device <= LAST_DEVICE
            && self.function <= LAST_FUNCTION
            && self.enables <= LAST_ENABLES
            && is_word_offset(self.offset as usize, 0, LAST_WORD);
        if within { Ok(()) } else { Err(Refusal::Outside) }
    }

    /// The twelve bytes of every request. All numbers are within their ranges.
    fn header(&self) -> [u8; HEADER_BYTES] {
        let [first, second, third] = FIXED;
        let [high, low] = self.requester;
        let target = self.device << 3 | self.function;
        let [.., page, place] = self.offset.to_be_bytes();
        let words = [
            [self.kind, first, second, third],
            [high, low, self.tag, self.enables],
            [self.bus, target, page, place],
        ];
        let mut header = [0; HEADER_BYTES];
        header.copy_from_slice(words.as_flattened());
        header
    }

    /// "What we write must read back as the same request": by the reading that a board has, of either edition. Only stated:
    /// no answer rests on it.
    fn reads_back(&self, written: &[u8]) -> bool {
        let Ok((route, writes)) = type_code(self.kind, Bit7::Taken) else {
            return false;
        };
        let access = if writes {
            Access::Write(u32::from_le_bytes(self.data))
        } else {
            Access::Read
        };
        let same = Request {
            route,
            access,
            poisoned: false,
            requester: self.requester,
            tag: self.tag,
            first_enables: self.enables,
            bus: self.bus,
            device: self.device,
            function: self.function,
            offset: self.offset as usize,
        };
        [Bit7::Ignored, Bit7::Taken]
            .into_iter()
            .all(|bit_7| Request::read(written, bit_7) == Ok(same))
    }
}
