//! A configuration packet taken apart by document 01's section "The packet", or refused with 3, 4, 5 or 6.

use super::edition::Bit7;
use super::refusal::Refusal;
use super::space::is_word_offset;

/// The bytes of every packet before its data and its digest.
pub(super) const HEADER_BYTES: usize = 12;
/// The bytes of a write's data, and also those of a digest.
pub(super) const TAIL_BYTES: usize = 4;

/// What is asked of the word.
#[derive(Clone, Copy, Debug, PartialEq, Eq)]
pub(super) enum Access {
    Read,
    /// A write with its four data bytes as a little-endian word.
    Write(u32),
}

/// Which way the request goes.
#[derive(Clone, Copy, Debug, PartialEq, Eq)]
pub(super) enum Route {
    Type0,
    Type1,
    Trusted,
}

/// A packet that is none of the refusals 3 to 6.
#[derive(Clone, Copy, Debug, PartialEq, Eq)]
pub(super) struct Request {
    pub route: Route,
    pub access: Access,
    pub poisoned: bool,
    pub requester: [u8; 2],
    pub tag: u8,
    pub first_enables: u8,
    pub bus: u8,
    pub device: u8,
    pub function: u8,
    pub offset: usize,
}

impl Request {
    /// Reads a packet, with bit 7 of its first byte ignored or not. The tests stand in the order of their numbers, so that
    /// the lowest is given.
    #[inline]
    pub(super) fn read(packet: &[u8], bit_7: Bit7) -> Result<Self, Refusal> {
        let (header, tail) = packet.split_first_chunk::<HEADER_BYTES>().ok_or(Refusal::Short)?;
        let (route, writes) = type_code(header[0], bit_7)?;
        debug_assert!(!bit_7.refuses(header[0]));
        let digest = header[2] & 0x80 != 0;
        if tail.len() != TAIL_BYTES * (usize::from(writes) + usize::from(digest)) {
            return Err(Refusal::PacketLength);
        }
        if !fixed_fields_hold(header) {
            return Err(Refusal::FixedField);
        }
        let access = match tail.first_chunk() {
            Some(data) if writes => Access::Write(u32::from_le_bytes(*data)),
            _ => Access::Read,
        };
        let request = Self {
            route,
            access,
            poisoned: header[2] & 0x40 != 0,
            requester: [header[4], header[5]],
            tag: header[6],
            first_enables: header[7] & 0x0F,
            bus: header[8],
            device: header[9] >> 3,
            function: header[9] & 0x07,
            offset: usize::from(header[10] & 0x0F) << 8 | usize::from(header[11] & 0xFC),
        };
        debug_assert!(request.is_as_written(header));
        Ok(request)
    }

    /// "9: bits 7:3 device, bits 2:0 function." "Offset = 256 × (byte 10 mod 16) + 4 × floor(byte 11 / 4)." Only
    /// stated: no answer rests on it.
    fn is_as_written(&self, header: &[u8; HEADER_BYTES]) -> bool {
        let [.., ninth, tenth, eleventh] = header.map(usize::from);
        usize::from(self.device) * 8 + usize::from(self.function) == ninth
            && self.offset == 256 * (tenth % 16) + 4 * (eleventh / 4)
            && is_word_offset(self.offset, 0x000, 0xFFC)
    }
}

/// "Six type codes are served: 04h and 44h (read, write, Type 0), 05h and 45h (read, write, Type 1), 1Bh and 5Bh
/// (trusted read, write)." Whether bit 7 of the byte belongs to its type code, the edition says. Answers the route, and
/// whether it is a write.
pub(super) fn type_code(first: u8, bit_7: Bit7) -> Result<(Route, bool), Refusal> {
    match bit_7.code(first) {
        0x04 => Ok((Route::Type0, false)),
        0x44 => Ok((Route::Type0, true)),
        0x05 => Ok((Route::Type1, false)),
        0x45 => Ok((Route::Type1, true)),
        0x1B => Ok((Route::Trusted, false)),
        0x5B => Ok((Route::Trusted, true)),
        _ => Err(Refusal::TypeCode),
    }
}

/// "TC, Attr and last enables must be 0 and Length must be 1". All other bits may be anything.
fn fixed_fields_hold(header: &[u8; HEADER_BYTES]) -> bool {
    header[1] & 0x70 == 0 && header[2] & 0x33 == 0 && header[3] == 1 && header[7] & 0xF0 == 0
}
