//! DVSEC records: sound ones at every offset, and such as have one fault or two.

use super::board::SPACE_BYTES;
use super::cursor::Cursor;
use super::lengths::WrongLengths;
use super::random::Random;
use super::record::{RecordScene, far, number_of_faults};

/// A cause for one of the numbers 1, 8 and 9.
#[derive(Clone, Copy)]
enum Fault {
    Space,
    Unaligned,
    Below,
    Above,
    Id,
    Version,
    TooShort,
    TooLong,
}

const FAULTS: [Fault; 8] = [
    Fault::Space,
    Fault::Unaligned,
    Fault::Below,
    Fault::Above,
    Fault::Id,
    Fault::Version,
    Fault::TooShort,
    Fault::TooLong,
];

/// Makes calls for one of the two questions. A record without a fault takes the offsets in turn.
pub struct DvsecMaker {
    words: Cursor,
    space_lengths: WrongLengths,
}

impl DvsecMaker {
    pub const fn new() -> Self {
        Self {
            words: Cursor::new(960),
            space_lengths: WrongLengths::new(),
        }
    }

    /// Makes a call.
    pub fn prepare(&mut self, scene: &mut RecordScene, random: &mut Random) {
        scene.begin(random);
        if scene.noise {
            return;
        }
        let faults = number_of_faults(random);
        scene.at = if random.percent(75) {
            0x100 + 4 * self.words.draw(faults == 0, random)
        } else {
            random.pick(&[0x100, 0xFF0, 0xFF4, 0xFF8, 0xFFC])
        };
        put(scene, random);
        for _ in 0..faults {
            self.spoil(scene, random.pick(&FAULTS), random);
        }
    }

    fn spoil(&mut self, scene: &mut RecordScene, fault: Fault, random: &mut Random) {
        let any = random.bits() as u32;
        match fault {
            Fault::Space => scene.space.lend(self.space_lengths.draw(random)),
            Fault::Unaligned => scene.at = scene.at.min(0xFF8) + random.within(1, 3),
            Fault::Below => {
                scene.at = 4 * random.below(0x100 / 4);
                put(scene, random);
            }
            Fault::Above => scene.at = far(scene.at, random),
            Fault::Id => scene.set_bits(0, 0xFFFF, random.pick(&[0x0000, 0x0022, 0x000B, 0x2300, 0x0123, any])),
            Fault::Version => scene.set_bits(0, 0xF << 16, random.pick(&[0, 2, 3, 9, any]) << 16),
            Fault::TooShort => scene.set_bits(4, 0xFFF << 20, random.pick(&[0, 9, any % 10]) << 20),
            Fault::TooLong => {
                let left = SPACE_BYTES.saturating_sub(scene.at) as u32;
                let length = left + random.pick(&[1, 2, 4, any % 0x1000]);
                scene.set_bits(4, 0xFFF << 20, length.min(0xFFF) << 20);
            }
        }
    }
}

/// Writes a sound record as far as the space goes.
fn put(scene: &mut RecordScene, random: &mut Random) {
    let left = SPACE_BYTES - scene.at;
    let longest = left.max(0x0A);
    let length = match random.below(6) {
        0 => 0x0A,
        1 => 0x0B,
        2 => 0x10,
        3 => left,
        _ => random.within(0x0A, longest),
    };
    let header_1 = (length.min(longest) as u32) << 20;
    scene.set_bits(0, u32::MAX, (random.bits() as u32) << 20 | 0x1_0023);
    scene.set_bits(4, u32::MAX, header_1 | random.bits() as u32 & 0xF_FFFF);
    scene.set_bits(8, 0xFFFF, random.bits() as u32);
}
