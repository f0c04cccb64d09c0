//! Packets for a board: such as succeed, such as have one cause or several for Unsupported Request, and plain noise.

use super::board::Board;
use super::cursor::Cursor;
use super::random::Random;

/// The most bytes that a packet is lent with.
pub const LONGEST_PACKET: usize = 24;

/// A packet: as many of the bytes as the length says.
#[derive(Clone, Copy)]
pub struct Packet {
    pub bytes: [u8; LONGEST_PACKET],
    pub length: usize,
}

impl Packet {
    pub fn as_slice(&self) -> &[u8] {
        &self.bytes[..self.length]
    }

    /// The same packet with bit 7 of its first byte set or clear.
    pub const fn with_bit_7(mut self, set: bool) -> Self {
        self.bytes[0] = self.bytes[0] & 0x7F | (set as u8) << 7;
        self
    }

    /// The offset of the word that it asks for, if it has so many bytes.
    pub fn offset(&self) -> usize {
        usize::from(self.bytes[10] & 0x0F) << 8 | usize::from(self.bytes[11] & 0xFC)
    }

    /// The length that document 01 gives to a packet of this type code and digest bit.
    pub const fn right_length(&self) -> usize {
        let writes = (self.bytes[0] >> 6 & 1) as usize;
        let digest = (self.bytes[2] >> 7) as usize;
        12 + 4 * (writes + digest)
    }
}

/// The fields that decide what becomes of a packet.
pub struct Fields {
    pub route: Route,
    pub writes: bool,
    pub poisoned: bool,
    pub enables: u8,
    pub bus: u8,
    pub device: u8,
    pub function: u8,
    pub offset: usize,
}

/// The low six bits of the six type codes.
#[derive(Clone, Copy, PartialEq, Eq)]
pub enum Route {
    Type0 = 0x04,
    Type1 = 0x05,
    Trusted = 0x1B,
}

/// A cause for Unsupported Request.
#[derive(Clone, Copy)]
enum Cause {
    Type1,
    OtherFunction,
    PoisonedWrite,
    OtherBus,
    OtherDevice,
    OtherTrustedFunction,
}

const CAUSES: [Cause; 6] = [
    Cause::Type1,
    Cause::OtherFunction,
    Cause::PoisonedWrite,
    Cause::OtherBus,
    Cause::OtherDevice,
    Cause::OtherTrustedFunction,
];

/// Makes packets. Each of the 1,024 words has its turn in reads and in writes of both spaces.
pub struct PacketMaker {
    words: [Cursor; 4],
}

impl PacketMaker {
    pub const fn new() -> Self {
        Self {
            words: [const { Cursor::new(1024) }; 4],
        }
    }

    /// A packet with no cause for a refusal: under edition 2 its bit 7 is clear. Where the call has none either, and the
    /// packet none for Unsupported Request, the words have their turn.
    pub fn sound(&mut self, board: &Board, in_turn: bool, random: &mut Random) -> Packet {
        let fields = self.fields(board, in_turn, random);
        let packet = encode(&fields, random);
        match board.description.edition {
            2 => packet.with_bit_7(false),
            _ => packet,
        }
    }

    /// The fields of such a packet.
    pub fn fields(&mut self, board: &Board, in_turn: bool, random: &mut Random) -> Fields {
        let spoiling = random.weighted(&[66, 24, 10]);
        let mut fields = self.succeeding(board, in_turn && spoiling == 0, random);
        let causes = if spoiling == 2 { random.within(2, 4) } else { spoiling };
        for _ in 0..causes {
            spoil(&mut fields, random.pick(&CAUSES), board, random);
        }
        fields
    }

    fn succeeding(&mut self, board: &Board, in_turn: bool, random: &mut Random) -> Fields {
        let writes = random.percent(50);
        let (route, (bus, device)) = match board.capture {
            Some(captured) if random.percent(45) => (Route::Trusted, captured),
            kept => (Route::Type0, target(kept, random)),
        };
        let access = 2 * usize::from(route == Route::Trusted) + usize::from(writes);
        Fields {
            route,
            writes,
            poisoned: !writes && random.percent(25),
            enables: random.below(16) as u8,
            bus,
            device,
            function: board.description.function,
            offset: self.offset(access, board, in_turn, random),
        }
    }

    /// An offset: the next in turn, A, B, a neighbour of either, one that meets A in its low eight bits, or any.
    fn offset(&mut self, access: usize, board: &Board, in_turn: bool, random: &mut Random) -> usize {
        let (a, b) = (board.description.a as usize, board.description.b as usize);
        let chosen = match random.weighted(&[62, 12, 12, 3, 3, 3, 5]) {
            0 => 4 * self.words[access].draw(in_turn, random),
            1 => a,
            2 => b,
            3 => a + random.pick(&[0xFFC, 4]),
            4 => b + random.pick(&[0xFFC, 4]),
            5 => (a & 0xFC) | random.below(16) << 8,
            _ => 4 * random.below(1024),
        };
        chosen % 0x1000
    }
}

/// The bus and the device of an ordinary packet: the captured ones, one of them changed, the least, the most, or any.
fn target(kept: Option<(u8, u8)>, random: &mut Random) -> (u8, u8) {
    let any = (random.byte(), random.below(32) as u8);
    let (bus, device) = kept.unwrap_or(any);
    match random.weighted(&[16, 16, 16, 7, 5, 40]) {
        0 => (bus, device),
        1 => (any.0, device),
        2 => (bus, any.1),
        3 => (0, 0),
        4 => (255, 31),
        _ => any,
    }
}

/// Gives the fields one cause for Unsupported Request. While nothing is captured, a trusted request has one by itself.
fn spoil(fields: &mut Fields, cause: Cause, board: &Board, random: &mut Random) {
    match (cause, board.capture) {
        (Cause::Type1, _) => fields.route = Route::Type1,
        (Cause::OtherFunction, _) => {
            (fields.route, fields.function) = (Route::Type0, other_function(board, random));
        }
        (Cause::PoisonedWrite, _) => (fields.writes, fields.poisoned) = (true, true),
        (Cause::OtherBus, None) => (fields.route, fields.bus, fields.device) = (Route::Trusted, 0, 0),
        (_, None) => fields.route = Route::Trusted,
        (_, Some(captured)) => spoil_trusted(fields, cause, captured, board, random),
    }
}

/// Gives a trusted request another bus, device or function than it should have.
fn spoil_trusted(fields: &mut Fields, cause: Cause, captured: (u8, u8), board: &Board, random: &mut Random) {
    if fields.route != Route::Trusted {
        fields.route = Route::Trusted;
        (fields.bus, fields.device) = captured;
    }
    match cause {
        Cause::OtherBus => fields.bus = captured.0.wrapping_add(random.within(1, 255) as u8),
        Cause::OtherDevice => fields.device = (captured.1 + random.within(1, 31) as u8) % 32,
        _ => fields.function = other_function(board, random),
    }
}

/// A function number that is not the board's.
fn other_function(board: &Board, random: &mut Random) -> u8 {
    (board.description.function + random.within(1, 7) as u8) % 8
}

/// The bytes of a packet with these fields. Reserved bits are all 0, all 1 or at random, and so are the data.
pub fn encode(fields: &Fields, random: &mut Random) -> Packet {
    let mut packet = noise(random);
    let digest = random.percent(25);
    let any = random.bits();
    let reserved: u64 = random.pick(&[0, 0, any, any, u64::MAX]);
    let [first, second, third, fourth, ..] = reserved.to_le_bytes();
    let bytes = &mut packet.bytes;
    bytes[0] = fields.route as u8 | u8::from(fields.writes) << 6 | first & 0x80;
    bytes[1] = second & 0x8F;
    bytes[2] = u8::from(digest) << 7 | u8::from(fields.poisoned) << 6 | third & 0x0C;
    bytes[3] = 1;
    bytes[7] = fields.enables;
    bytes[8] = fields.bus;
    bytes[9] = fields.device << 3 | fields.function;
    bytes[10] = (fields.offset >> 8) as u8 | fourth & 0xF0;
    bytes[11] = (fields.offset & 0xFC) as u8 | first & 0x03;
    match random.below(10) {
        0 => bytes[12..16].fill(0x00),
        1 | 2 => bytes[12..16].fill(0xFF),
        _ => {}
    }
    packet.length = packet.right_length();
    packet
}

/// A packet of any length with random bytes.
pub fn noise(random: &mut Random) -> Packet {
    let mut bytes = [0; LONGEST_PACKET];
    random.fill(&mut bytes);
    Packet {
        bytes,
        length: random.below(LONGEST_PACKET + 1),
    }
}
