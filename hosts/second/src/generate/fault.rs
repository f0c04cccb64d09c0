//! Faults for a call of `serve`: each of the causes for the numbers 1 to 6, put into a call that has none of them.

use thawribbon::raw::Capture;

use super::case::ServeCase;
use super::cursor::Cursor;
use super::edition::WrongEditions;
use super::lengths::WrongLengths;
use super::marks::DoublingMaker;
use super::packet::LONGEST_PACKET;
use super::packet_fault::{PacketFault, PacketFaultMaker};
use super::random::Random;

/// A cause for one of the numbers 1 to 6.
#[derive(Clone, Copy)]
enum Fault {
    /// The length of one of the two spaces and their rules.
    Space(usize),
    /// The length of the marks of the ordinary or of the trusted space.
    Marks(usize),
    /// Bits of the ordinary or of the trusted space that are marked doubly.
    Doubled(usize),
    Device,
    Function,
    A(Way),
    B(Way),
    Edition,
    Reply,
    Packet(PacketFault),
}

/// How an offset is outside its range.
#[derive(Clone, Copy)]
enum Way {
    Below,
    Above,
    Unaligned,
}

/// The faults, each with how often it is taken where it comes alone: those with many values more often.
const FAULTS: [(Fault, usize); 26] = [
    (Fault::Space(0), 4),
    (Fault::Space(1), 4),
    (Fault::Space(2), 4),
    (Fault::Space(3), 4),
    (Fault::Marks(0), 4),
    (Fault::Marks(1), 4),
    (Fault::Doubled(0), 22),
    (Fault::Doubled(1), 22),
    (Fault::Device, 3),
    (Fault::Function, 3),
    (Fault::A(Way::Below), 3),
    (Fault::A(Way::Above), 3),
    (Fault::A(Way::Unaligned), 3),
    (Fault::B(Way::Below), 3),
    (Fault::B(Way::Above), 3),
    (Fault::B(Way::Unaligned), 3),
    (Fault::Edition, 15),
    (Fault::Reply, 7),
    (Fault::Packet(PacketFault::Short), 5),
    (Fault::Packet(PacketFault::TypeCode), 18),
    (Fault::Packet(PacketFault::Bit7), 10),
    (Fault::Packet(PacketFault::PacketLength), 6),
    (Fault::Packet(PacketFault::TrafficClass), 4),
    (Fault::Packet(PacketFault::Attributes), 4),
    (Fault::Packet(PacketFault::LastEnables), 4),
    (Fault::Packet(PacketFault::LengthField), 28),
];

/// Puts faults into calls.
pub struct FaultMaker {
    space_lengths: [WrongLengths; 4],
    marks_lengths: [WrongLengths; 2],
    doublings: [DoublingMaker; 2],
    editions: WrongEditions,
    replies: Cursor,
    packets: PacketFaultMaker,
}

impl FaultMaker {
    pub fn new() -> Self {
        Self {
            space_lengths: [const { WrongLengths::new() }; 4],
            marks_lengths: [const { WrongLengths::new() }; 2],
            doublings: [const { DoublingMaker::new() }; 2],
            editions: WrongEditions::new(),
            replies: Cursor::new(16),
            packets: PacketFaultMaker::new(),
        }
    }

    /// Puts so many faults into a call. Where there are any, bit 7 comes beside them now and then: under edition 2 that is
    /// one more.
    pub fn put_some(&mut self, number: usize, case: &mut ServeCase, random: &mut Random) {
        let beside_bit_7 = number > 0 && random.percent(10);
        if number == 1 {
            self.put_one(!beside_bit_7, case, random);
        } else {
            for _ in 0..number {
                self.put(random.pick(&FAULTS).0, false, case, random);
            }
        }
        if beside_bit_7 {
            case.packet = case.packet.with_bit_7(true);
        }
    }

    /// Puts one fault into a call, with the values of those that have many in turn or at random.
    pub fn put_one(&mut self, in_turn: bool, case: &mut ServeCase, random: &mut Random) {
        let place = random.weighted(&FAULTS.map(|(_, weight)| weight));
        self.put(FAULTS[place].0, in_turn, case, random);
    }

    /// Puts one fault of the numbers 2 to 6 into a call, each number as often as the others.
    pub fn put_later(&mut self, case: &mut ServeCase, random: &mut Random) {
        const LATER: [Fault; 5] = [
            Fault::Reply,
            Fault::Packet(PacketFault::Short),
            Fault::Packet(PacketFault::TypeCode),
            Fault::Packet(PacketFault::PacketLength),
            Fault::Packet(PacketFault::LastEnables),
        ];
        self.put(random.pick(&LATER), false, case, random);
    }

    fn put(&mut self, fault: Fault, in_turn: bool, case: &mut ServeCase, random: &mut Random) {
        let description = &mut case.description;
        match fault {
            Fault::Space(space) => case.lengths[space] = self.space_lengths[space].draw(random),
            Fault::Marks(space) => case.lengths[4 + space] = self.marks_lengths[space].draw_for_marks(random),
            Fault::Doubled(space) => case.doubled[space] = Some(self.doublings[space].draw(in_turn, case, random)),
            Fault::Device => case.kept = with_wrong_device(case.kept, random),
            Fault::Function => description.function = wrong_function(description.function, random),
            Fault::A(way) => description.a = wrong_offset(way, description.a, 0x104, random),
            Fault::B(way) => description.b = wrong_offset(way, description.b, 0x00C, random),
            Fault::Edition => self.put_edition(in_turn, case, random),
            Fault::Reply => self.put_reply(in_turn, case, random),
            Fault::Packet(fault) => self.packets.put(fault, in_turn, &mut case.packet, random),
        }
    }

    /// A reply under 16 bytes. Bit 7 comes with it more often than with other faults, and now and then the packet is empty.
    fn put_reply(&mut self, in_turn: bool, case: &mut ServeCase, random: &mut Random) {
        case.reply_length = self.replies.draw(in_turn, random);
        case.packet = case.packet.with_bit_7(random.percent(30));
        if random.percent(5) {
            case.packet.length = 0;
        }
    }

    /// Another edition. Bit 7 is no fault then, and so is set as often as not; now and then the packet has any length.
    fn put_edition(&mut self, in_turn: bool, case: &mut ServeCase, random: &mut Random) {
        let other_length = random.percent(20);
        case.description.edition = self.editions.draw(in_turn && !other_length, random);
        case.packet = case.packet.with_bit_7(random.percent(50));
        if other_length {
            case.packet.length = random.below(LONGEST_PACKET + 1);
        }
    }
}

/// A capture with a device over 31: just over, at the top, or one that is right in its low bits.
fn with_wrong_device(kept: Capture, random: &mut Random) -> Capture {
    let high = (random.within(1, 7) as u8) << 5;
    let any = random.within(32, 255) as u8;
    let device = random.pick(&[32, 255, high | kept.device & 31, any]);
    let captured = kept.captured.max(1);
    Capture {
        captured,
        device,
        ..kept
    }
}

/// A function over 7: just over, at the top, or one that is right in its low bits.
fn wrong_function(right: u8, random: &mut Random) -> u8 {
    let high = (random.within(1, 31) as u8) << 3;
    let any = random.within(8, 255) as u8;
    random.pick(&[8, 255, high | right & 7, any])
}

/// An offset for A or B that is outside its range in one way. One that is above may be right in its low 12 bits.
fn wrong_offset(way: Way, right: u32, lowest: u32, random: &mut Random) -> u32 {
    let low = right & 0xFFC;
    match way {
        Way::Below => {
            let any = 4 * random.below(lowest as usize / 4) as u32;
            random.pick(&[0, lowest - 4, lowest - 8, any])
        }
        Way::Above => {
            let high = (random.within(1, 0xF_FFFF) as u32) << 12;
            let (top, bit_16) = (0x8000_0000 | low, 0x1_0000 | low);
            random.pick(&[0x1000, 0x1004, 0xFFFF_FFFC, top, bit_16, high | low])
        }
        Way::Unaligned => low.clamp(lowest, 0xFF8) + random.within(1, 3) as u32,
    }
}
