//! The causes for the numbers 3 to 6 that a packet has, at the board and at the router, and the places of wrong values.

use crate::generate::Packet;

/// One for each cause: under 12 bytes, type code, bit 7 where that is refused, packet length, TC, Attr, last enables,
/// Length. The type code is that of the other seven bits. Where the packet is too short or has another type code, the
/// later ones are not looked for as far as they depend on what is missing.
pub fn packet_causes(packet: &Packet, bit_7_is_refused: bool) -> [bool; 8] {
    let (bytes, length) = (&packet.bytes, packet.length);
    if length < 12 {
        return [true, false, false, false, false, false, false, false];
    }
    let known = matches!(bytes[0] & 0x7F, 0x04 | 0x44 | 0x05 | 0x45 | 0x1B | 0x5B);
    [
        false,
        !known,
        bit_7_is_refused && bytes[0] >= 0x80,
        known && length != packet.right_length(),
        bytes[1] & 0x70 != 0,
        bytes[2] & 0x30 != 0,
        bytes[7] & 0xF0 != 0,
        length_field(bytes) != 1,
    ]
}

/// The Length of a packet.
pub fn length_field(bytes: &[u8; 24]) -> usize {
    usize::from(bytes[2] & 3) << 8 | usize::from(bytes[3])
}

/// The place of a first byte among the 244 that have no type code.
pub fn other_first_byte(first: u8) -> usize {
    let served_codes = [0x04, 0x05, 0x1B, 0x44, 0x45, 0x5B, 0x84, 0x85, 0x9B, 0xC4, 0xC5, 0xDB];
    let below = served_codes.iter().filter(|&&code| code < first).count();
    usize::from(first) - below
}

/// The place of a wrong TC among the 25 values of three fields that are wrong.
pub fn wrong_traffic_class(bytes: &[u8; 24]) -> usize {
    usize::from(bytes[1] >> 4 & 7) - 1
}

/// The place of a wrong Attr among them.
pub fn wrong_attributes(bytes: &[u8; 24]) -> usize {
    7 + usize::from(bytes[2] >> 4 & 3) - 1
}

/// The place of wrong last enables among them.
pub fn wrong_last_enables(bytes: &[u8; 24]) -> usize {
    10 + usize::from(bytes[7] >> 4) - 1
}
