//! What comes between a packet and its repeat, and packets that it may matter to.

use super::board::Board;
use super::packet::{Fields, Packet, PacketMaker, Route, encode};
use super::random::Random;
use super::run_packet::{RunPacketMaker, capturing_write};

/// What comes between. Of boards of two functions all but the last is for the function that the packet is for.
#[derive(Clone, Copy, Debug, PartialEq, Eq)]
pub enum Between {
    /// A write of other data to the word that the packet asks for.
    OtherData,
    /// A trusted write at B, and the packet is an ordinary read at A.
    Register,
    /// An ordinary write that captures another bus or device.
    AnotherCapture,
    Reset,
    /// Errors: the board sets marked bits.
    Errors,
    Read,
    Unsupported,
    Refusal,
    /// A packet for the other function.
    OtherFunction,
}

/// What comes between, each as often as it stands here.
const OF_ONE: [Between; 14] = [
    Between::OtherData,
    Between::OtherData,
    Between::Register,
    Between::AnotherCapture,
    Between::AnotherCapture,
    Between::Reset,
    Between::Reset,
    Between::Errors,
    Between::Errors,
    Between::Read,
    Between::Unsupported,
    Between::Refusal,
    Between::Refusal,
    Between::Refusal,
];

impl Between {
    /// One for a board of so many functions.
    pub fn draw(functions: usize, random: &mut Random) -> Self {
        if functions == 2 && random.percent(30) {
            Self::OtherFunction
        } else {
            random.pick(&OF_ONE)
        }
    }

    /// Whether it is a packet that changes nothing, and so nothing about a packet and its repeat.
    pub const fn is_idle(self) -> bool {
        matches!(self, Self::Read | Self::Unsupported | Self::Refusal)
    }
}

/// Makes packets that come twice, and such as come between.
pub struct BetweenMaker {
    packets: PacketMaker,
    spoilt: RunPacketMaker,
}

impl BetweenMaker {
    pub fn new() -> Self {
        Self {
            packets: PacketMaker::new(),
            spoilt: RunPacketMaker::new(),
        }
    }

    /// A packet that comes twice.
    pub fn repeated(&mut self, between: Between, board: &Board, random: &mut Random) -> Packet {
        let mut fields = self.packets.fields(board, false, random);
        match between {
            Between::AnotherCapture if random.percent(15) => {
                (fields.route, fields.poisoned) = (Route::Trusted, false);
                (fields.bus, fields.device) = other_target(board, random);
            }
            Between::Reset | Between::Read | Between::Unsupported | Between::Refusal if random.percent(25) => {
                return self.spoilt.faulty(board, random);
            }
            _ => {}
        }
        if between == Between::Register || between == Between::Errors && random.percent(25) {
            (fields.route, fields.writes) = (Route::Type0, false);
            fields.function = board.description.function;
            fields.offset = board.description.a as usize;
        }
        for_edition(board, encode(&fields, random))
    }

    /// A packet that comes between, by what it is and by the packet that is repeated. Now and then both have the same
    /// requester and tag.
    pub fn between(&mut self, between: Between, repeated: &Packet, board: &Board, random: &mut Random) -> Packet {
        let mut packet = match between {
            Between::OtherData => other_data(repeated, random),
            Between::Register => register_write(board, random),
            Between::AnotherCapture => capture(repeated, board, random),
            Between::Refusal => self.spoilt.faulty(board, random),
            Between::Unsupported => {
                let mut fields = self.packets.fields(board, false, random);
                match random.below(3) {
                    0 => fields.route = Route::Type1,
                    1 => (fields.writes, fields.poisoned) = (true, true),
                    _ => fields.function = (board.description.function + 1) % 8,
                }
                encode(&fields, random)
            }
            Between::Read => {
                let mut fields = self.packets.fields(board, false, random);
                fields.writes = false;
                encode(&fields, random)
            }
            Between::OtherFunction | Between::Reset | Between::Errors => self.packets.sound(board, false, random),
        };
        if random.percent(30) {
            packet.bytes[4..7].copy_from_slice(&repeated.bytes[4..7]);
        }
        match between {
            Between::Refusal => packet,
            _ => for_edition(board, packet),
        }
    }
}

/// An ordinary write that captures: something else, or what a trusted packet asks for that the board has not captured.
fn capture(repeated: &Packet, board: &Board, random: &mut Random) -> Packet {
    let asked = (repeated.bytes[8], repeated.bytes[9] >> 3);
    let is_trusted = repeated.bytes[0] & 0x3F == Route::Trusted as u8;
    let target = if is_trusted && board.capture != Some(asked) {
        asked
    } else {
        other_target(board, random)
    };
    capturing_write(board, target, random)
}

/// The packet as it is, but under edition 2 with bit 7 clear.
const fn for_edition(board: &Board, packet: Packet) -> Packet {
    match board.description.edition {
        2 => packet.with_bit_7(false),
        _ => packet,
    }
}

/// A bus and a device of which one is not as captured.
fn other_target(board: &Board, random: &mut Random) -> (u8, u8) {
    let (bus, device) = board.capture.unwrap_or((0, 0));
    match random.below(3) {
        0 => (bus.wrapping_add(random.within(1, 255) as u8), device),
        1 => (bus, (device + random.within(1, 31) as u8) % 32),
        _ => (!bus, random.below(32) as u8),
    }
}

/// A write to the word that a packet asks for, with other data and with some byte enabled.
fn other_data(repeated: &Packet, random: &mut Random) -> Packet {
    let mut packet = *repeated;
    packet.bytes[0] |= 0x40;
    packet.bytes[2] &= !0x40;
    packet.bytes[7] = random.within(1, 15) as u8;
    for byte in &mut packet.bytes[12..16] {
        *byte ^= random.byte() | 1;
    }
    packet.length = packet.right_length();
    packet
}

/// A trusted write of the word at B.
fn register_write(board: &Board, random: &mut Random) -> Packet {
    let (bus, device) = board.capture.unwrap_or((0, 0));
    let fields = Fields {
        route: Route::Trusted,
        writes: true,
        poisoned: false,
        enables: random.within(1, 15) as u8,
        bus,
        device,
        function: board.description.function,
        offset: board.description.b as usize,
    };
    encode(&fields, random)
}

#[cfg(test)]
mod tests {
    use super::{Between, BetweenMaker, Board, Random};

    #[test]
    fn what_comes_between_is_what_it_is_called() {
        let (mut board, mut random, mut maker) = (Board::spent(), Random::new(1), BetweenMaker::new());
        for _ in 0..200 {
            board.renew(&mut random);
            board.capture = Some((5, 3));
            let mut made = |between, random: &mut Random| {
                let packet = maker.repeated(between, &board, random);
                (packet, maker.between(between, &packet, &board, random))
            };
            let (packet, other) = made(Between::OtherData, &mut random);
            assert_eq!(
                (other.offset(), other.bytes[0]),
                (packet.offset(), packet.bytes[0] | 0x40)
            );
            assert_ne!(other.bytes[12..16], packet.bytes[12..16]);
            let (packet, other) = made(Between::Register, &mut random);
            assert_eq!(
                (packet.bytes[0] & 0x7F, packet.offset()),
                (0x04, board.description.a as usize)
            );
            assert_eq!(
                (other.bytes[0] & 0x7F, other.offset()),
                (0x5B, board.description.b as usize)
            );
            let (packet, other) = made(Between::AnotherCapture, &mut random);
            let [asked, target] = [packet, other].map(|packet| (packet.bytes[8], packet.bytes[9] >> 3));
            assert!(other.bytes[0] == 0x44 && target != (5, 3));
            assert!(packet.bytes[0] & 0x3F != 0x1B || asked == (5, 3) || asked == target);
            let (_, other) = made(Between::Read, &mut random);
            assert!(other.bytes[0] & 0x40 == 0 && other.length == other.right_length());
        }
    }
}
