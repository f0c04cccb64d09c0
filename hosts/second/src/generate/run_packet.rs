//! Packets for two boards side by side: sound ones, such as have one fault, and noise, with bit 7 as often as not.

use super::board::Board;
use super::packet::{Fields, Packet, PacketMaker, Route, encode, noise};
use super::packet_fault::{PacketFault, PacketFaultMaker};
use super::random::Random;

/// The faults: those of one of four fields are as often as each of the others.
const FAULTS: [PacketFault; 13] = [
    PacketFault::Short,
    PacketFault::Short,
    PacketFault::Short,
    PacketFault::TypeCode,
    PacketFault::TypeCode,
    PacketFault::TypeCode,
    PacketFault::PacketLength,
    PacketFault::PacketLength,
    PacketFault::PacketLength,
    PacketFault::TrafficClass,
    PacketFault::Attributes,
    PacketFault::LastEnables,
    PacketFault::LengthField,
];

/// Makes packets for boards that are well described.
pub struct RunPacketMaker {
    packets: PacketMaker,
    faults: PacketFaultMaker,
}

impl RunPacketMaker {
    pub fn new() -> Self {
        Self {
            packets: PacketMaker::new(),
            faults: PacketFaultMaker::new(),
        }
    }

    /// A packet for a board. Now and then it is of Type 1, or empty.
    pub fn draw(&mut self, board: &Board, random: &mut Random) -> Packet {
        let packet = self.packets.sound(board, false, random);
        self.spoil(packet, random)
    }

    /// A packet without a fault, as it is or made to be of Type 1, with a fault, empty, or noise.
    pub fn spoil(&mut self, mut packet: Packet, random: &mut Random) -> Packet {
        if random.percent(15) {
            packet.bytes[0] = packet.bytes[0] & 0xC0 | Route::Type1 as u8;
        }
        match random.weighted(&[60, 34, 4, 2]) {
            0 => {}
            1 => self.faults.put(random.pick(&FAULTS), false, &mut packet, random),
            2 => packet = noise(random),
            _ => packet.length = 0,
        }
        packet.with_bit_7(random.percent(50))
    }

    /// A packet for a board that has one fault.
    pub fn faulty(&mut self, board: &Board, random: &mut Random) -> Packet {
        let mut packet = self.packets.sound(board, false, random);
        self.faults.put(random.pick(&FAULTS), false, &mut packet, random);
        packet
    }

    /// A packet for a board that a condition holds of: others are thrown away.
    pub fn draw_such(&mut self, board: &Board, random: &mut Random, is_such: impl Fn(&Packet) -> bool) -> Packet {
        loop {
            let packet = self.draw(board, random);
            if is_such(&packet) {
                return packet;
            }
        }
    }
}

/// A trusted write of all four bytes of the word at a board's B, in which every bit is 1: what it leaves hangs on the rules
/// and the marks alone.
pub fn write_at_b(board: &Board, random: &mut Random) -> Packet {
    let (bus, device) = board.capture.unwrap_or((0, 0));
    let fields = Fields {
        route: Route::Trusted,
        offset: board.description.b as usize,
        ..whole_write(board, bus, device)
    };
    let mut packet = encode(&fields, random).with_bit_7(false);
    packet.bytes[12..16].fill(0xFF);
    packet
}

/// An ordinary write, of a random word, that captures this bus and device.
pub fn capturing_write(board: &Board, (bus, device): (u8, u8), random: &mut Random) -> Packet {
    let fields = Fields {
        offset: 4 * random.below(1024),
        ..whole_write(board, bus, device)
    };
    encode(&fields, random).with_bit_7(false)
}

/// A write of the whole word at 000h, of Type 0.
const fn whole_write(board: &Board, bus: u8, device: u8) -> Fields {
    Fields {
        route: Route::Type0,
        writes: true,
        poisoned: false,
        enables: 0x0F,
        bus,
        device,
        function: board.description.function,
        offset: 0,
    }
}

/// The length of a reply: mostly enough.
pub fn some_reply_length(random: &mut Random) -> usize {
    if random.percent(91) {
        random.within(16, 20)
    } else {
        random.below(16)
    }
}

#[cfg(test)]
mod tests {
    use super::{Board, Random, RunPacketMaker, capturing_write, write_at_b};

    fn some_board(random: &mut Random) -> Board {
        let mut board = Board::spent();
        board.renew(random);
        board.capture = Some((5, 3));
        board
    }

    #[test]
    fn packets_have_bit_7_and_not_in_both_editions() {
        let mut random = Random::new(1);
        let mut maker = RunPacketMaker::new();
        let mut board = some_board(&mut random);
        for edition in [1, 2] {
            board.description.edition = edition;
            let mut met = [0; 2];
            for _ in 0..200 {
                met[usize::from(maker.draw(&board, &mut random).bytes[0] >> 7)] += 1;
            }
            assert!(met.into_iter().all(|count| count > 50), "{met:?}");
        }
    }

    #[test]
    fn the_two_writes_are_for_the_board_and_have_bit_7_clear() {
        let mut random = Random::new(2);
        let board = some_board(&mut random);
        for _ in 0..20 {
            let packet = write_at_b(&board, &mut random);
            assert_eq!((packet.bytes[0], packet.offset()), (0x5B, board.description.b as usize));
            assert_eq!((packet.bytes[7], &packet.bytes[12..16]), (0x0F, &[0xFF; 4][..]));
            let captures = capturing_write(&board, (7, 2), &mut random);
            assert_eq!((captures.bytes[0], captures.bytes[8]), (0x44, 7));
            let target = board.description.function;
            assert_eq!(
                [packet.bytes[9], captures.bytes[9]],
                [3, 2].map(|device| device << 3 | target)
            );
            assert!(
                [packet, captures]
                    .iter()
                    .all(|packet| packet.length == packet.right_length())
            );
        }
    }
}
