//! Parts of a request that is to be written: such as are all within their ranges, and plain noise.

use thawribbon::raw::Parts;

use super::cursor::Cursor;
use super::packet::Fields;
use super::random::Random;

/// The six kinds: document 01's type codes.
pub const KINDS: [u8; 6] = [0x04, 0x44, 0x05, 0x45, 0x1B, 0x5B];

/// Whether a request of one of the six kinds is a write.
pub const fn is_write(kind: u8) -> bool {
    kind & 0x40 != 0
}

/// Makes parts. Each of the 1,024 offsets has its turn in reads and in writes.
pub struct PartsMaker {
    words: [Cursor; 2],
}

impl PartsMaker {
    pub const fn new() -> Self {
        Self {
            words: [const { Cursor::new(1024) }; 2],
        }
    }

    /// Parts with no cause for a refusal. Where the call has none either, the offsets have their turn.
    pub fn sound(&mut self, in_turn: bool, random: &mut Random) -> Parts {
        let kind = random.pick(&KINDS);
        let words = &mut self.words[usize::from(is_write(kind))];
        let offset = match random.weighted(&[85, 15]) {
            0 => 4 * words.draw(in_turn, random) as u32,
            _ => random.pick(&[0x000, 0x004, 0x0FC, 0x100, 0xFF8, 0xFFC]),
        };
        let ends = random.percent(10);
        let device = if ends { 31 } else { random.below(32) as u8 };
        let function = if ends { 7 } else { random.below(8) as u8 };
        Parts {
            offset,
            kind,
            device,
            function,
            enables: random.below(16) as u8,
            ..any(random)
        }
    }

    /// Parts that ask for what these fields ask for. Poison cannot be asked for.
    pub fn of(fields: &Fields, random: &mut Random) -> Parts {
        Parts {
            offset: fields.offset as u32,
            kind: fields.route as u8 | u8::from(fields.writes) << 6,
            bus: fields.bus,
            device: fields.device,
            function: fields.function,
            enables: fields.enables,
            ..any(random)
        }
    }

    /// Parts of random numbers, mostly of one of the six kinds.
    pub fn noise(random: &mut Random) -> Parts {
        let parts = any(random);
        if random.percent(70) {
            return Parts {
                kind: random.pick(&KINDS),
                ..parts
            };
        }
        parts
    }
}

/// Random numbers throughout; the data are all 0 or all 1 now and then.
fn any(random: &mut Random) -> Parts {
    let [kind, high, low, tag, bus, device, function, enables] = random.bits().to_le_bytes();
    let [offset, data] = [(); 2].map(|()| random.bits() as u32);
    let data = random.pick(&[0, u32::MAX, data, data, data, data, data, data]);
    Parts {
        offset,
        kind,
        requester: [high, low],
        tag,
        bus,
        device,
        function,
        enables,
        data: data.to_le_bytes(),
    }
}
