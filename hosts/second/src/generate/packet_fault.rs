//! Faults of a packet: the causes for the numbers 3 to 6.

use super::cursor::Cursor;
use super::packet::{LONGEST_PACKET, Packet};
use super::random::Random;

/// A cause for one of the numbers 3 to 6. Bit 7 is one for a board of edition 2 only.
#[derive(Clone, Copy)]
pub enum PacketFault {
    Short,
    TypeCode,
    Bit7,
    PacketLength,
    TrafficClass,
    Attributes,
    LastEnables,
    LengthField,
}

/// Values of Length that meet 1 in all of its bits but one or in some of them, or that lie beside it.
const NEAR_1: [u16; 14] = [
    0x000, 0x003, 0x005, 0x009, 0x011, 0x021, 0x041, 0x081, 0x101, 0x201, 0x002, 0x301, 0x100, 0x3FF,
];

/// Puts faults into packets. A fault with many values takes them in turn where it is the call's only one. Bit 7 of a short
/// packet is set as often as not, and one that is set as a fault comes with another length now and then.
pub struct PacketFaultMaker {
    short_lengths: Cursor,
    wrong_lengths: Cursor,
    first_bytes: Cursor,
    other_first_bytes: Vec<u8>,
    length_fields: Cursor,
}

impl PacketFaultMaker {
    pub fn new() -> Self {
        let is_other = |byte: &u8| !matches!(byte & 0x7F, 0x04 | 0x44 | 0x05 | 0x45 | 0x1B | 0x5B);
        let other_first_bytes: Vec<u8> = (0..=u8::MAX).filter(is_other).collect();
        Self {
            short_lengths: Cursor::new(12),
            wrong_lengths: Cursor::new(LONGEST_PACKET - 12),
            first_bytes: Cursor::new(other_first_bytes.len()),
            other_first_bytes,
            length_fields: Cursor::new(1023),
        }
    }

    /// Puts a fault into a packet.
    pub fn put(&mut self, fault: PacketFault, in_turn: bool, packet: &mut Packet, random: &mut Random) {
        match fault {
            PacketFault::Short => {
                packet.length = self.short_lengths.draw(in_turn, random);
                *packet = packet.with_bit_7(random.percent(50));
            }
            PacketFault::TypeCode => packet.bytes[0] = self.other_first_bytes[self.first_bytes.draw(in_turn, random)],
            PacketFault::Bit7 => {
                *packet = packet.with_bit_7(true);
                if random.percent(25) {
                    packet.length = random.within(1, LONGEST_PACKET);
                }
            }
            PacketFault::PacketLength => {
                let drawn = 12 + self.wrong_lengths.draw(in_turn, random);
                packet.length = drawn + usize::from(drawn >= packet.right_length());
            }
            PacketFault::TrafficClass => put_bits(&mut packet.bytes[1], 0x70, random.within(1, 7) << 4),
            PacketFault::Attributes => put_bits(&mut packet.bytes[2], 0x30, random.within(1, 3) << 4),
            PacketFault::LastEnables => put_bits(&mut packet.bytes[7], 0xF0, random.within(1, 15) << 4),
            PacketFault::LengthField => {
                let [high, low] = self.length_field(in_turn, random).to_be_bytes();
                put_bits(&mut packet.bytes[2], 0x03, high.into());
                packet.bytes[3] = low;
            }
        }
    }

    /// A Length that is not 1: mostly the next in turn.
    fn length_field(&mut self, in_turn: bool, random: &mut Random) -> u16 {
        if random.percent(25) {
            return random.pick(&NEAR_1);
        }
        let drawn = self.length_fields.draw(in_turn, random) as u16;
        drawn + u16::from(drawn >= 1)
    }
}

/// Puts other bits in the place of those that a mask tells.
fn put_bits(byte: &mut u8, mask: u8, bits: usize) {
    *byte = *byte & !mask | bits as u8;
}
