//! A board of two functions that lives for some calls, and packets for either function, for neither, and for one with
//! what is the other's.

use thawribbon::raw::Capture;

use super::board::Board;
use super::cursor::Cursor;
use super::packet::{Fields, Packet, PacketMaker, Route, encode};
use super::random::Random;
use super::run_packet::RunPacketMaker;
use crate::model::is_for;

/// The most calls that such a board lives for.
const LONGEST_LIFE: usize = 200;

/// A board of two functions: the primary, and the alternate. Each is a well-described board of one function by itself.
pub struct Duo {
    pub sides: [Board; 2],
    /// Each two numbers have their turn.
    numbers: Cursor,
    calls_left: usize,
}

impl Duo {
    /// A board whose life is over, to be renewed.
    pub fn spent() -> Self {
        Self {
            sides: [Board::spent(), Board::spent()],
            numbers: Cursor::new(8 * 7),
            calls_left: 0,
        }
    }

    /// Uses up one call of the board's life. Where none is left, the board is made anew, and the answer is true.
    pub fn live(&mut self, random: &mut Random) -> bool {
        let over = self.calls_left == 0;
        if over {
            self.calls_left = random.within(1, LONGEST_LIFE);
            self.renew(random);
        }
        self.calls_left -= 1;
        over
    }

    /// Makes the board anew: different numbers, and one edition. Now and then both functions have the same A or B, or the
    /// alternate has the primary's the other way round.
    pub fn renew(&mut self, random: &mut Random) {
        for side in &mut self.sides {
            side.renew(random);
        }
        let turn = self.numbers.sweep() as u8;
        let [primary, alternate] = &mut self.sides;
        let (first, second) = (&mut primary.description, &mut alternate.description);
        first.function = turn / 7;
        second.function = (turn / 7 + 1 + turn % 7) % 8;
        second.edition = first.edition;
        match random.below(12) {
            0 => second.a = first.a,
            1 => second.b = first.b,
            2 => (second.a, second.b) = (first.a, first.b),
            3 => (second.a, second.b) = (first.b.max(0x104), first.a),
            _ => {}
        }
    }

    /// The function numbers.
    pub fn numbers(&self) -> [u8; 2] {
        self.sides.each_ref().map(|side| side.description.function)
    }

    /// The edition, which both functions have.
    pub const fn edition(&self) -> u32 {
        self.sides[0].description.edition
    }

    /// As [`Board::kept`], for each function.
    pub fn kept(&self, random: &mut Random) -> [Capture; 2] {
        self.sides.each_ref().map(|side| side.kept(random))
    }
}

/// Makes packets for a board of two functions.
pub struct DuoPacketMaker {
    packets: PacketMaker,
    spoilt: RunPacketMaker,
}

impl DuoPacketMaker {
    pub fn new() -> Self {
        Self {
            packets: PacketMaker::new(),
            spoilt: RunPacketMaker::new(),
        }
    }

    /// A packet for the function of a place, or for neither, that a condition holds of: others are thrown away. Under edition
    /// 1 it has bit 7 as often as not.
    pub fn draw_for(
        &mut self,
        whom: Option<usize>,
        duo: &Duo,
        random: &mut Random,
        is_such: impl Fn(&Packet) -> bool,
    ) -> Packet {
        loop {
            let packet = self.sound(duo, random);
            let mut packet = self.spoilt.spoil(packet, random);
            if duo.edition() == 2 && random.percent(60) {
                packet = packet.with_bit_7(false);
            }
            if is_for(packet.as_slice(), duo.edition(), duo.numbers()) == whom && is_such(&packet) {
                return packet;
            }
        }
    }

    /// A packet with no cause for a refusal: under edition 2 its bit 7 is clear.
    pub fn sound(&mut self, duo: &Duo, random: &mut Random) -> Packet {
        let packet = encode(&self.fields(duo, random), random);
        match duo.edition() {
            2 => packet.with_bit_7(false),
            _ => packet,
        }
    }

    /// The fields of a packet that is meant for one of the functions. Then it may name the other one, or neither, with all
    /// else as it is; it may be of Type 1, whatever it names; and it may have what the other function has captured, or the
    /// other's A or B.
    fn fields(&mut self, duo: &Duo, random: &mut Random) -> Fields {
        let meant = random.below(2);
        let [own, other] = [&duo.sides[meant], &duo.sides[1 - meant]];
        let mut fields = self.packets.fields(own, false, random);
        if random.percent(8) {
            let (a, b) = (other.description.a, other.description.b);
            fields.offset = random.pick(&[a, b]) as usize;
        }
        let others_capture = other.capture.unwrap_or((0, 0));
        match random.weighted(&[52, 10, 10, 8, 10, 10]) {
            0 => {}
            1 => fields.function = other.description.function,
            2 => fields.function = neither(duo.numbers(), random),
            3 => {
                fields.route = Route::Type1;
                let ([primary, alternate], free) = (duo.numbers(), neither(duo.numbers(), random));
                fields.function = random.pick(&[primary, alternate, free]);
            }
            4 => (fields.bus, fields.device) = near(others_capture, random),
            _ => (fields.route, (fields.bus, fields.device)) = (Route::Trusted, others_capture),
        }
        fields
    }
}

/// The same bus and device, or one of them only.
fn near((bus, device): (u8, u8), random: &mut Random) -> (u8, u8) {
    match random.below(3) {
        0 => (random.byte(), device),
        1 => (bus, random.below(32) as u8),
        _ => (bus, device),
    }
}

/// A function number that is neither of the two.
fn neither(numbers: [u8; 2], random: &mut Random) -> u8 {
    let mut number = random.below(8) as u8;
    while numbers.contains(&number) {
        number = (number + 1) % 8;
    }
    number
}

#[cfg(test)]
mod tests {
    use super::{Duo, DuoPacketMaker, Random};

    #[test]
    fn the_numbers_differ_and_there_is_one_edition() {
        let (mut duo, mut random) = (Duo::spent(), Random::new(1));
        let mut met = [[false; 8]; 8];
        for _ in 0..56 {
            duo.renew(&mut random);
            let [primary, alternate] = duo.sides.each_ref().map(|side| side.description);
            assert_eq!(primary.edition, alternate.edition);
            for description in [primary, alternate] {
                assert!(description.a % 4 == 0 && (0x104..=0xFFC).contains(&description.a));
                assert!(description.b % 4 == 0 && (0x00C..=0xFFC).contains(&description.b));
            }
            met[usize::from(primary.function)][usize::from(alternate.function)] = true;
        }
        for (primary, row) in met.iter().enumerate() {
            assert!((0..8).all(|alternate| row[alternate] == (alternate != primary)));
        }
    }

    #[test]
    fn packets_name_either_function_and_neither() {
        let (mut duo, mut random, mut maker) = (Duo::spent(), Random::new(2), DuoPacketMaker::new());
        duo.renew(&mut random);
        let mut met = [0; 3];
        for _ in 0..600 {
            let packet = maker.sound(&duo, &mut random);
            assert_eq!(packet.length, packet.right_length());
            let named = duo.numbers().iter().position(|number| *number == packet.bytes[9] & 7);
            met[named.unwrap_or(2)] += 1;
        }
        assert!(met.into_iter().all(|count| count > 50), "{met:?}");
    }
}
