//! Multicast capabilities: sound ones at every offset, and such as have one fault or two.

use super::cursor::Cursor;
use super::groups::sound_groups;
use super::lengths::WrongLengths;
use super::random::Random;
use super::record::{RecordScene, far, number_of_faults};

/// A cause for one of the numbers 1, 8, 9 and 13.
#[derive(Clone, Copy)]
enum Fault {
    Space,
    Unaligned,
    Below,
    Above,
    Id,
    Version,
    Room,
    NumGroup,
    Index,
}

/// The faults, each with how often it is taken: those with many values more often.
const FAULTS: [(Fault, usize); 9] = [
    (Fault::Space, 12),
    (Fault::Unaligned, 8),
    (Fault::Below, 8),
    (Fault::Above, 14),
    (Fault::Id, 12),
    (Fault::Version, 10),
    (Fault::Room, 12),
    (Fault::NumGroup, 24),
    (Fault::Index, 10),
];

/// The last offset with 28h bytes left.
const LAST: usize = 0xFD8;

/// Makes calls. A capability without a fault takes the offsets in turn, and a fault that stands alone its values.
pub struct MulticastMaker {
    words: Cursor,
    short: Cursor,
    id_bits: Cursor,
    versions: Cursor,
    max_groups: Cursor,
    indexes: Cursor,
    space_lengths: WrongLengths,
}

impl MulticastMaker {
    pub const fn new() -> Self {
        Self {
            words: Cursor::new((LAST - 0x100) / 4 + 1),
            short: Cursor::new((0xFFC - LAST) / 4),
            id_bits: Cursor::new(16),
            versions: Cursor::new(15),
            max_groups: Cursor::new(63),
            indexes: Cursor::new(12),
            space_lengths: WrongLengths::new(),
        }
    }

    /// Makes a call.
    pub fn prepare(&mut self, scene: &mut RecordScene, random: &mut Random) {
        scene.begin(random);
        if scene.noise {
            return;
        }
        let faults = number_of_faults(random);
        scene.at = if random.percent(90) {
            0x100 + 4 * self.words.draw(faults == 0, random)
        } else {
            random.pick(&[0x100, LAST - 4, LAST])
        };
        put(scene, random);
        for _ in 0..faults {
            let fault = FAULTS[random.weighted(&FAULTS.map(|(_, weight)| weight))].0;
            self.spoil(scene, fault, faults == 1, random);
        }
    }

    fn spoil(&mut self, scene: &mut RecordScene, fault: Fault, in_turn: bool, random: &mut Random) {
        match fault {
            Fault::Space => scene.space.lend(self.space_lengths.draw(random)),
            Fault::Unaligned => {
                scene.at = scene.at.min(0xFF8) + random.within(1, 3);
                if random.percent(60) {
                    put(scene, random);
                }
            }
            Fault::Below => {
                scene.at = 4 * random.below(0x100 / 4);
                put(scene, random);
            }
            Fault::Above => scene.at = far(scene.at, random),
            Fault::Id => scene.set_bits(0, 0xFFFF, self.id(in_turn, random)),
            Fault::Version => {
                let other = self.versions.draw(in_turn, random) as u32;
                scene.set_bits(0, 0xF << 16, (other + u32::from(other > 0)) << 16);
            }
            Fault::Room => {
                scene.at = LAST + 4 + 4 * self.short.draw(in_turn, random);
                put(scene, random);
            }
            Fault::NumGroup => {
                let max_group = self.max_groups.draw(in_turn, random);
                let any = random.within(max_group + 1, 63);
                let num_group = random.pick(&[max_group + 1, max_group + 1, 63, any]);
                scene.set_bits(4, 0x003F_003F, (num_group << 16 | max_group) as u32);
            }
            Fault::Index => {
                scene.set_bits(4, 1 << 31, 1 << 31);
                scene.set_bits(8, 0x3F, self.indexes.draw(in_turn, random) as u32);
            }
        }
    }

    /// Another ID: one bit off, its bytes turned round, that of a neighbour or of a DVSEC, or any.
    fn id(&mut self, in_turn: bool, random: &mut Random) -> u32 {
        let any = random.bits() as u32;
        let one_off = 0x0012 ^ 1 << self.id_bits.draw(in_turn, random);
        random.pick(&[
            one_off, one_off, one_off, one_off, 0x0000, 0x0023, 0x1200, 0x0011, 0x0013, any,
        ])
    }
}

/// Writes a sound capability as far as the space goes. Bits that belong to no field are 0, 1 or any.
fn put(scene: &mut RecordScene, random: &mut Random) {
    let groups = sound_groups(random);
    let any = random.bits();
    let free = random.pick(&[0, u64::MAX, any, any]);
    let numbers = groups.max_group | groups.num_group << 16 | groups.enable << 31 | free & 0x7FC0_FFC0;
    let place = groups.index | groups.base | free >> 32 & 0xFC0;
    scene.set_bits(0, u32::MAX, (random.bits() as u32) << 20 | 0x1_0012);
    scene.set_bits(4, u32::MAX, numbers as u32);
    for (from_start, value) in [(0x08, place), (0x10, groups.receive), (0x18, groups.block_all)] {
        scene.set_bits(from_start, u32::MAX, value as u32);
        scene.set_bits(from_start + 4, u32::MAX, (value >> 32) as u32);
    }
}
