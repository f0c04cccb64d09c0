//! Dual-BDF records: sound ones at every offset, every vector, and such as have one fault or two.

use super::cursor::Cursor;
use super::lengths::WrongLengths;
use super::random::Random;
use super::record::{RecordScene, far, number_of_faults};

/// A cause for one of the numbers 1, 8, 9 and 10.
#[derive(Clone, Copy)]
enum Fault {
    Space,
    Unaligned,
    Below,
    JustAbove,
    Above,
    Capability,
    CapabilityLength,
    Length,
    Revision,
    Vendor,
    Id,
    Vector,
}

const FAULTS: [Fault; 12] = [
    Fault::Space,
    Fault::Unaligned,
    Fault::Below,
    Fault::JustAbove,
    Fault::Above,
    Fault::Capability,
    Fault::CapabilityLength,
    Fault::Length,
    Fault::Revision,
    Fault::Vendor,
    Fault::Id,
    Fault::Vector,
];

/// Makes calls. A record without a fault takes the offsets in turn.
pub struct DualMaker {
    words: Cursor,
    vectors: Cursor,
    space_lengths: WrongLengths,
}

impl DualMaker {
    pub const fn new() -> Self {
        Self {
            words: Cursor::new(48),
            vectors: Cursor::new(256),
            space_lengths: WrongLengths::new(),
        }
    }

    /// Makes a call.
    pub fn prepare(&mut self, scene: &mut RecordScene, random: &mut Random) {
        scene.begin(random);
        if scene.noise {
            return;
        }
        let faults = number_of_faults(random);
        scene.at = 0x040 + 4 * self.words.draw(faults == 0, random);
        put(scene, random);
        if faults == 1 && random.percent(25) {
            let vector = self.vectors.sweep() as u32;
            return scene.set_bits(8, 0xFF << 16, vector << 16);
        }
        for _ in 0..faults {
            self.spoil(scene, random.pick(&FAULTS), random);
        }
    }

    fn spoil(&mut self, scene: &mut RecordScene, fault: Fault, random: &mut Random) {
        let any = random.bits() as u32;
        match fault {
            Fault::Space => scene.space.lend(self.space_lengths.draw(random)),
            Fault::Unaligned => scene.at = scene.at.min(0x0F8) + random.within(1, 3),
            Fault::Below => put_at(scene, 4 * random.below(0x040 / 4), random),
            Fault::JustAbove => put_at(scene, 0x100, random),
            Fault::Above => scene.at = far(scene.at, random),
            Fault::Capability => scene.set_bits(0, 0xFF, random.pick(&[0x00, 0x08, 0x0A, 0x89, any])),
            Fault::CapabilityLength => {
                scene.set_bits(0, 0xFF << 16, random.pick(&[0x00, 0x0B, 0x0D, 0x10, any]) << 16);
            }
            Fault::Length => {
                let length = random.pick(&[0x000, 0x00B, 0x00D, 0x010, 0x10C, 0xC00, any]);
                scene.set_bits(4, 0xFFF << 20, length << 20);
            }
            Fault::Revision => scene.set_bits(4, 0xF << 16, random.pick(&[1, 2, 8, 15, any]) << 16),
            Fault::Vendor => scene.set_bits(
                4,
                0xFFFF,
                random.pick(&[0x8086, 0x1EC0, 0x8680, 0xC01E, 0x0086, 0x8000, 0x00C0, 0x1E00, any]),
            ),
            Fault::Id => scene.set_bits(8, 0xFFFF, random.pick(&[0x0009, 0x0002, 0x0900, 0x0109, 0x0102, any])),
            Fault::Vector => scene.set_bits(8, 0xFF << 16, random.pick(&[0x00, 0x03, 0x81, 0xFF, any]) << 16),
        }
    }
}

/// Writes a sound record at an offset outside the range, and asks for it there.
fn put_at(scene: &mut RecordScene, at: usize, random: &mut Random) {
    scene.at = at;
    put(scene, random);
}

/// Writes a sound record. Where it runs over 100h, its bytes beyond are still right.
fn put(scene: &mut RecordScene, random: &mut Random) {
    let (vendor, id) = random.pick(&[(0x8086, 0x0009), (0x1EC0, 0x0002)]);
    let vector = 1 << random.below(8);
    let device = (random.bits() as u32) << 24;
    scene.set_bits(0, 0x00FF_00FF, 0x000C_0009);
    scene.set_bits(4, u32::MAX, 0x00C << 20 | vendor);
    scene.set_bits(8, u32::MAX, device | vector << 16 | id);
}
