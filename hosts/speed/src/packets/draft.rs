//! Packets as they are sent: random in all that document 01 leaves open, and fixed where the kind says so.

use super::setting::Setting;
use crate::random::Random;

/// The bytes of a packet, which may still be changed to another kind.
pub struct Draft(Vec<u8>);

impl Draft {
    /// A legal Type 0 or Type 1 packet for the board's own function, of any bus and device, not at A.
    pub fn ordinary(code: u8, random: &mut Random, setting: &Setting) -> Self {
        let offset = offset_other_than(setting.a, random);
        let target = (random.byte(), random.byte() & 31);
        Self::legal(code, random, target, setting.function).at(offset)
    }

    /// A legal trusted packet for what the board has captured, or for any bus and device where it has captured nothing.
    pub fn trusted(code: u8, random: &mut Random, setting: &Setting) -> Self {
        let offset = offset_other_than(setting.a, random);
        let target = setting.capture.unwrap_or((random.byte(), random.byte() & 31));
        Self::legal(code, random, target, setting.function).at(offset)
    }

    /// A legal packet for a bus, of any device and function, at any offset.
    pub fn for_bus(code: u8, random: &mut Random, bus: u8) -> Self {
        let target = (bus, random.byte() & 31);
        let function = random.byte() & 7;
        Self::legal(code, random, target, function)
    }

    /// Random bytes, with the fixed fields as document 01 wants them, with or without a digest, not poisoned.
    fn legal(code: u8, random: &mut Random, (bus, device): (u8, u8), function: u8) -> Self {
        let digest = random.byte() & 0x80;
        let data_bytes = if code & 0x40 == 0 { 0 } else { 4 };
        let mut bytes = random.bytes(12 + data_bytes + usize::from(digest >> 7) * 4);
        bytes[0] = bytes[0] & 0x80 | code;
        bytes[1] &= 0x8F;
        bytes[2] = bytes[2] & 0x0C | digest;
        bytes[3] = 1;
        bytes[7] &= 0x0F;
        bytes[8] = bus;
        bytes[9] = device << 3 | function;
        Self(bytes)
    }

    pub fn at(mut self, offset: u16) -> Self {
        let [high, low] = offset.to_be_bytes();
        self.0[10] = self.0[10] & 0xF0 | high;
        self.0[11] = self.0[11] & 0x03 | low;
        self
    }

    pub fn with_enables(mut self, enables: u8) -> Self {
        self.0[7] = enables;
        self
    }

    /// Fills the data of a write.
    pub fn with_data(mut self, data: u8) -> Self {
        self.0[12..16].fill(data);
        self
    }

    /// Clears bit 7 of byte 0, or sets it.
    pub fn with_bit_7(mut self, is_set: bool) -> Self {
        self.0[0] = self.0[0] & 0x7F | u8::from(is_set) << 7;
        self
    }

    pub fn for_another_function(mut self, random: &mut Random) -> Self {
        self.0[9] ^= 1 + random.below(7) as u8;
        self
    }

    pub fn for_function(mut self, number: u8) -> Self {
        self.0[9] = self.0[9] & 0xF8 | number;
        self
    }

    pub fn poisoned(mut self) -> Self {
        self.0[2] |= 0x40;
        self
    }

    pub fn cut_below_12(mut self, random: &mut Random) -> Self {
        self.0.truncate(random.below(12));
        self
    }

    pub fn with_another_type_code(mut self, random: &mut Random) -> Self {
        while [0x04, 0x44, 0x05, 0x45, 0x1B, 0x5B].contains(&(self.0[0] & 0x7F)) {
            self.0[0] = random.byte();
        }
        self
    }

    pub fn with_another_length(mut self, random: &mut Random) -> Self {
        let others: Vec<usize> = (12..=20).filter(|&length| length != self.0.len()).collect();
        self.0.resize(random.pick(&others), 0);
        self
    }

    /// TC, Attr, Length or last enables other than they must be.
    pub fn with_another_field(mut self, random: &mut Random) -> Self {
        match random.below(4) {
            0 => self.0[1] |= random.pick(&[0x10, 0x20, 0x40]),
            1 => self.0[2] |= random.pick(&[0x01, 0x02, 0x10, 0x20]),
            2 => self.0[3] ^= 1 << random.below(8),
            _ => self.0[7] |= 0x10 << random.below(4),
        }
        self
    }

    pub fn into_bytes(self) -> Box<[u8]> {
        self.0.into_boxed_slice()
    }
}

/// A random word offset, but not this one.
fn offset_other_than(excluded: u16, random: &mut Random) -> u16 {
    loop {
        let offset = 4 * random.below(1024) as u16;
        if offset != excluded {
            return offset;
        }
    }
}
