//! Faults of the parts of a request: each of the causes for the number 1.

use thawribbon::raw::Parts;

use super::cursor::Cursor;
use super::parts::KINDS;
use super::random::Random;

/// A cause for the number 1.
#[derive(Clone, Copy)]
pub enum PartsFault {
    /// One of the six kinds, but for its bit 7.
    Bit7,
    Kind,
    Device,
    Function,
    Over,
    Unaligned,
    Enables,
}

/// Puts faults into parts. Their values are taken in turn where the fault is the call's only one.
pub struct PartsFaultMaker {
    kinds: Cursor,
    other_kinds: Vec<u8>,
    devices: Cursor,
    functions: Cursor,
    enables: Cursor,
    bits: Cursor,
}

impl PartsFaultMaker {
    pub fn new() -> Self {
        let other_kinds: Vec<u8> = (0..=u8::MAX).filter(|kind| !KINDS.contains(kind)).collect();
        Self {
            kinds: Cursor::new(other_kinds.len()),
            other_kinds,
            devices: Cursor::new(256 - 32),
            functions: Cursor::new(256 - 8),
            enables: Cursor::new(256 - 16),
            bits: Cursor::new(20),
        }
    }

    /// Puts a fault into parts. An offset may have both of its faults.
    pub fn put(&mut self, fault: PartsFault, in_turn: bool, parts: &mut Parts, random: &mut Random) {
        match fault {
            PartsFault::Bit7 => parts.kind = random.pick(&KINDS) | 0x80,
            PartsFault::Kind => parts.kind = self.other_kinds[self.kinds.draw(in_turn, random)],
            PartsFault::Device => parts.device = 32 + self.devices.draw(in_turn, random) as u8,
            PartsFault::Function => parts.function = 8 + self.functions.draw(in_turn, random) as u8,
            PartsFault::Enables => parts.enables = 16 + self.enables.draw(in_turn, random) as u8,
            PartsFault::Over => parts.offset = self.over(parts.offset, in_turn, random),
            PartsFault::Unaligned => parts.offset = unaligned(parts.offset, random),
        }
    }

    /// An offset over FFCh: right in its low 12 bits, with one bit above them or some, or just behind the space.
    fn over(&mut self, offset: u32, in_turn: bool, random: &mut Random) -> u32 {
        let high = (random.within(1, 0xF_FFFF) as u32) << 12;
        match random.weighted(&[60, 20, 10, 10]) {
            0 => offset & 0xFFF | 0x1000 << self.bits.draw(in_turn, random),
            1 => offset & 0xFFF | high,
            2 => offset & 3 | 0x1000,
            _ => offset & 3 | 0xFFFF_FFFC,
        }
    }
}

/// An offset that is not a multiple of 4, below FFCh where the one given is not above.
fn unaligned(offset: u32, random: &mut Random) -> u32 {
    let aligned = if offset == 0xFFC { 0xFF8 } else { offset & !3 };
    aligned | random.within(1, 3) as u32
}
