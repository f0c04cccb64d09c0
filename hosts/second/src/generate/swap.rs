//! Two writes that differ in their enables, and one with the enables of both. Request 12/13: they have "the same type, bus,
//! device, function, offset and data"; all else is free in each.

use thawribbon::raw::Port;

use super::board::Board;
use super::cursor::Cursor;
use super::packet::{Fields, Packet, Route, encode};
use super::random::Random;

/// Two writes, and one with both sets of enables.
pub struct Swap {
    pub first: Packet,
    pub second: Packet,
    pub both: Packet,
}

impl Swap {
    /// A read of the word that the two write, which succeeds where they do: of the word itself, or of the word at A where
    /// they are trusted and write the one at B.
    pub fn read_between(&self, board: &Board, random: &mut Random) -> Packet {
        let mut packet = self.second;
        packet.bytes[0] &= !0x40;
        packet.bytes[7] = random.below(16) as u8;
        let at_b = packet.offset() == board.description.b as usize;
        if packet.bytes[0] & 0x3F == Route::Trusted as u8 && at_b && random.percent(50) {
            packet.bytes[0] = Route::Type0 as u8;
            put_offset(&mut packet, board.description.a as usize);
        }
        packet.length = packet.right_length();
        packet
    }

    /// The same with other data in the second write.
    pub fn with_other_data(mut self, random: &mut Random) -> Self {
        let turned = random.bits() as u32 | 1 << random.below(32);
        for (byte, turned) in self.second.bytes[12..16].iter_mut().zip(turned.to_le_bytes()) {
            *byte ^= turned;
        }
        self
    }
}

/// Makes such writes. Each two sets of enables have their turn, in either space.
pub struct SwapMaker {
    enables: [Cursor; 2],
}

impl SwapMaker {
    pub const fn new() -> Self {
        Self {
            enables: [const { Cursor::new(256) }; 2],
        }
    }

    /// Writes that succeed on a board. One behind a port is sent those of Type 0 as Type 1, to the port's secondary, and
    /// trusted ones where what it has captured is in the port's range. Where these are swapped, and not at A, the enables
    /// have their turn.
    pub fn draw(&mut self, board: &Board, port: Option<Port>, in_turn: bool, random: &mut Random) -> Swap {
        let fields = fields(board, port, random);
        let trusted = fields.route == Route::Trusted;
        let at_a = !trusted && fields.offset == board.description.a as usize;
        let enables = self.enables(trusted, in_turn && !at_a, random);
        let edition = board.description.edition;
        let [first, mut second, mut both] =
            [enables[0], enables[1], enables[0] | enables[1]].map(|enables| write(&fields, enables, edition, random));
        if random.percent(30) {
            second.bytes[4..7].copy_from_slice(&first.bytes[4..7]);
        }
        if random.percent(50) {
            let enables = both.bytes[7];
            both = first;
            both.bytes[7] = enables;
        }
        for packet in [&mut second, &mut both] {
            packet.bytes[12..16].copy_from_slice(&first.bytes[12..16]);
        }
        Swap { first, second, both }
    }

    /// Two sets of enables: the next two in turn, none twice, none and some, all and some, the same, or those of the others.
    fn enables(&mut self, trusted: bool, in_turn: bool, random: &mut Random) -> [u8; 2] {
        let some = random.below(16) as u8;
        let [first, second] = match random.weighted(&[60, 6, 7, 7, 8, 12]) {
            0 => {
                let turn = self.enables[usize::from(trusted)].draw(in_turn, random) as u8;
                return [turn / 16, turn % 16];
            }
            1 => [0, 0],
            2 => [0, some],
            3 => [15, some],
            4 => [some, some],
            _ => [some, !some & 15],
        };
        if random.percent(50) {
            [first, second]
        } else {
            [second, first]
        }
    }
}

/// The fields of a write that succeeds: of any word, or of the one at A or at B.
fn fields(board: &Board, port: Option<Port>, random: &mut Random) -> Fields {
    let (a, b) = (board.description.a as usize, board.description.b as usize);
    let captured = board
        .capture
        .filter(|&(bus, _)| port.is_none_or(|port| (port.secondary..=port.subordinate).contains(&bus)));
    let any = (random.byte(), random.below(32) as u8);
    let (route, (bus, device)) = match (captured, port) {
        (Some(captured), _) if random.percent(50) => (Route::Trusted, captured),
        (_, Some(port)) => (Route::Type1, (port.secondary, any.1)),
        (Some(captured), None) if random.percent(40) => (Route::Type0, captured),
        _ => (Route::Type0, any),
    };
    Fields {
        route,
        writes: true,
        poisoned: false,
        enables: 0,
        bus,
        device,
        function: board.description.function,
        offset: match random.weighted(&[66, 17, 17]) {
            0 => 4 * random.below(1024),
            1 => a,
            _ => b,
        },
    }
}

/// A write with these fields and enables, and all else at random. Under edition 2 its bit 7 is clear.
fn write(fields: &Fields, enables: u8, edition: u32, random: &mut Random) -> Packet {
    let mut packet = encode(fields, random);
    packet.bytes[7] = enables;
    match edition {
        2 => packet.with_bit_7(false),
        _ => packet,
    }
}

/// Has a packet ask for the word at an offset.
pub fn put_offset(packet: &mut Packet, offset: usize) {
    packet.bytes[10] = packet.bytes[10] & 0xF0 | (offset >> 8) as u8;
    packet.bytes[11] = packet.bytes[11] & 0x03 | (offset & 0xFC) as u8;
}

#[cfg(test)]
mod tests {
    use super::{Board, Random, SwapMaker, put_offset};

    #[test]
    fn the_three_writes_differ_in_what_is_free_only() {
        let (mut board, mut random, mut maker) = (Board::spent(), Random::new(1), SwapMaker::new());
        let mut met = [[false; 16]; 16];
        for turn in 0..2000 {
            if turn % 50 == 0 {
                board.renew(&mut random);
                board.capture = Some((5, 3));
            }
            let swap = maker.draw(&board, None, true, &mut random);
            let [first, second, both] = [swap.first, swap.second, swap.both];
            for other in [second, both] {
                assert_eq!(other.bytes[0] & 0x7F, first.bytes[0] & 0x7F);
                assert_eq!(other.bytes[8..10], first.bytes[8..10]);
                assert_eq!(other.bytes[12..16], first.bytes[12..16]);
                assert_eq!((other.offset(), other.length), (first.offset(), other.right_length()));
            }
            assert_eq!(both.bytes[7], first.bytes[7] | second.bytes[7]);
            met[usize::from(first.bytes[7])][usize::from(second.bytes[7])] = true;
            let read = swap.read_between(&board, &mut random);
            assert!(read.bytes[0] & 0x40 == 0 && read.length == read.right_length());
            let data = first.bytes[12..16].to_vec();
            assert_ne!(swap.with_other_data(&mut random).second.bytes[12..16], data);
        }
        assert!(met.iter().flatten().all(|met| *met));
    }

    #[test]
    fn an_offset_is_put_into_its_bits() {
        let mut packet = SwapMaker::new()
            .draw(&Board::spent(), None, true, &mut Random::new(1))
            .first;
        let [high, low] = [packet.bytes[10] & 0xF0, packet.bytes[11] & 0x03];
        put_offset(&mut packet, 0x9A4);
        assert_eq!(
            (packet.offset(), packet.bytes[10..12].to_vec()),
            (0x9A4, vec![high | 0x09, low | 0xA4])
        );
    }
}
