//! Request 9/13: the editions of a board, and what each makes of bit 7 of a packet's first byte.

use super::refusal::Refusal;

/// What becomes of bit 7 of byte 0.
#[derive(Clone, Copy, Debug, PartialEq, Eq)]
pub(super) enum Bit7 {
    /// Document 01: "bit 7 reserved and ignored; bits 6 to 0 the type code."
    Ignored,
    /// "Later revisions of Base take bit 7 of byte 0 into the format field", and with it into the type code: none of the
    /// six has it.
    Taken,
}

impl Bit7 {
    /// By the edition of a board: "1 ignores bit 7 as now, 2 gives answer 4 when it is set. Any other edition is answer
    /// 1."
    pub(super) const fn of(edition: u32) -> Result<Self, Refusal> {
        match edition {
            1 => Ok(Self::Ignored),
            2 => Ok(Self::Taken),
            _ => Err(Refusal::Outside),
        }
    }

    /// What of a first byte is its type code.
    pub(super) const fn code(self, first: u8) -> u8 {
        match self {
            Self::Ignored => first & 0x7F,
            Self::Taken => first,
        }
    }

    /// "2 gives answer 4 when it is set", as it stands: whether this alone makes it 4. Only stated: no answer rests on
    /// it.
    pub(super) const fn refuses(self, first: u8) -> bool {
        matches!(self, Self::Taken) && first & 0x80 != 0
    }
}

/// Whether a packet is trusted for demand 3, at a board of an edition. Document 01: "A packet is *trusted* if its first
/// byte, bit 7 cleared, is 1Bh or 5Bh, whatever its length. All others, the empty one included, are *ordinary*." Request
/// 9/13: "Under edition 2 a packet with bit 7 set counts as ordinary in demand 3".
pub fn counts_as_trusted(packet: &[u8], edition: u32) -> bool {
    match packet.first() {
        Some(first) if edition == 2 && first & 0x80 != 0 => false,
        Some(first) => matches!(first & 0x7F, 0x1B | 0x5B),
        None => false,
    }
}
